;; The upper half of a product of 64 bits by 64, out of four products: locals in several runs of types.
;; line: types 1 funcs 1 tables 0 memories 0 globals 0 exports 1 start - elems 0 datas 0 size 131
(module
  (func (export "high") (param $a i64) (param $b i64) (result i64)
    (local $a_low i64) (local $a_high i64)
    (local $half i32)
    (local $b_low i64)
    (local $b_high i64)
    (local $middle i64)
    i32.const 32
    local.set $half
    local.get $a
    i64.const 0xffffffff
    i64.and
    local.set $a_low
    local.get $a
    local.get $half
    i64.extend_i32_u
    i64.shr_u
    local.set $a_high
    local.get $b
    i64.const 0xffffffff
    i64.and
    local.set $b_low
    local.get $b
    local.get $half
    i64.extend_i32_u
    i64.shr_u
    local.set $b_high
    ;; the part that begins at bit 32, without its carry
    local.get $a_high
    local.get $b_low
    i64.mul
    local.get $a_low
    local.get $b_low
    i64.mul
    i64.const 32
    i64.shr_u
    i64.add
    local.set $middle
    local.get $a_high
    local.get $b_high
    i64.mul
    local.get $middle
    i64.const 32
    i64.shr_u
    i64.add
    local.get $a_low
    local.get $b_high
    i64.mul
    local.get $middle
    i64.const 0xffffffff
    i64.and
    i64.add
    i64.const 32
    i64.shr_u
    i64.add))
