;; The count of the primes below a number of at most 65,536, by a sieve in memory: a loop in a loop.
;; line: types 1 funcs 1 tables 0 memories 1 globals 0 exports 1 start - elems 0 datas 0 size 118
(module
  (memory 1)
  (func (export "primes") (param $below i32) (result i32)
    (local $n i32) (local $multiple i32) (local $found i32)
    i32.const 2
    local.set $n
    block $all
      loop $candidate
        local.get $n
        local.get $below
        i32.ge_u
        br_if $all
        block $composite
          local.get $n
          i32.load8_u
          br_if $composite
          local.get $found
          i32.const 1
          i32.add
          local.set $found
          local.get $n
          local.set $multiple
          loop $strike
            local.get $multiple
            local.get $n
            i32.add
            local.tee $multiple
            local.get $below
            i32.ge_u
            br_if $composite
            local.get $multiple
            i32.const 1
            i32.store8
            br $strike
          end
        end
        local.get $n
        i32.const 1
        i32.add
        local.set $n
        br $candidate
      end
    end
    local.get $found))
