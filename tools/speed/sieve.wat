;; How many primes there are below 65,536, by a sieve over one page, forty times.
(module
  (memory 1)
  (func $clear (local $at i32)
    loop $next
      local.get $at
      i64.const 0
      i64.store
      local.get $at
      i32.const 8
      i32.add
      local.tee $at
      i32.const 65536
      i32.lt_u
      br_if $next
    end)
  (func $cross (param $prime i32) (local $at i32)
    local.get $prime
    local.get $prime
    i32.mul
    local.set $at
    block $done
      loop $next
        local.get $at
        i32.const 65536
        i32.ge_u
        br_if $done
        local.get $at
        i32.const 1
        i32.store8
        local.get $at
        local.get $prime
        i32.add
        local.set $at
        br $next
      end
    end)
  (func $count (result i32) (local $n i32) (local $found i32)
    i32.const 2
    local.set $n
    loop $next
      local.get $n
      i32.load8_u
      i32.eqz
      if
        local.get $found
        i32.const 1
        i32.add
        local.set $found
        local.get $n
        i32.const 256
        i32.lt_u
        if
          local.get $n
          call $cross
        end
      end
      local.get $n
      i32.const 1
      i32.add
      local.tee $n
      i32.const 65536
      i32.lt_u
      br_if $next
    end
    local.get $found)
  (func (export "run") (result i32) (local $times i32) (local $found i32)
    i32.const 40
    local.set $times
    loop $again
      call $clear
      call $count
      local.set $found
      local.get $times
      i32.const 1
      i32.sub
      local.tee $times
      br_if $again
    end
    local.get $found))
