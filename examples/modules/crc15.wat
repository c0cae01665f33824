;; The CRC of Classical CAN over the lowest bits of a number, the first bit highest.
;; line: types 1 funcs 1 tables 0 memories 0 globals 1 exports 1 start - elems 0 datas 0 size 110
(module
  (global $polynomial i32 (i32.const 0x4599))
  (func (export "crc15") (param $bits i64) (param $count i32) (result i32)
    (local $crc i32)
    block $done
      loop $next
        local.get $count
        i32.eqz
        br_if $done
        local.get $count
        i32.const 1
        i32.sub
        local.set $count
        ;; the next bit against the highest of the register
        local.get $bits
        local.get $count
        i64.extend_i32_u
        i64.shr_u
        i32.wrap_i64
        local.get $crc
        i32.const 14
        i32.shr_u
        i32.xor
        i32.const 1
        i32.and
        local.get $crc
        i32.const 1
        i32.shl
        i32.const 0x7fff
        i32.and
        local.set $crc
        if
          local.get $crc
          global.get $polynomial
          i32.xor
          local.set $crc
        end
        br $next
      end
    end
    local.get $crc))
