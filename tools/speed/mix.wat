;; A number of 64 bits that 3,000 times 1,000 rounds of arithmetic mix.
(module
  (func (export "run") (result i64) (local $times i32) (local $x i64) (local $i i32)
    i32.const 3000
    local.set $times
    i64.const 0x9E3779B97F4A7C15
    local.set $x
    loop $outer
      i32.const 1000
      local.set $i
      loop $inner
        local.get $x
        local.get $x
        i64.const 13
        i64.shl
        i64.xor
        local.tee $x
        local.get $x
        i64.const 7
        i64.shr_u
        i64.xor
        i64.const 0x2545F4914F6CDD1D
        i64.mul
        local.get $i
        i64.extend_i32_u
        i64.add
        local.set $x
        local.get $i
        i32.const 1
        i32.sub
        local.tee $i
        br_if $inner
      end
      local.get $times
      i32.const 1
      i32.sub
      local.tee $times
      br_if $outer
    end
    local.get $x))
