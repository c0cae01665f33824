;; Sums and values kept in bounds by select, with the largest and smallest constants.
;; line: types 4 funcs 5 tables 0 memories 0 globals 0 exports 5 start - elems 0 datas 0 size 174
(module
  (func $clamp (export "clamp") (param $n i64) (param $low i64) (param $high i64) (result i64)
    local.get $low
    local.get $n
    local.get $high
    local.get $n
    local.get $high
    i64.lt_s
    select
    local.tee $n
    local.get $n
    local.get $low
    i64.lt_s
    select)
  (func (export "add") (param $a i32) (param $b i32) (result i32)
    local.get $a
    i64.extend_i32_s
    local.get $b
    i64.extend_i32_s
    i64.add
    i64.const -2147483648
    i64.const 2147483647
    call $clamp
    i32.wrap_i64)
  (func (export "least") (result i64)
    i64.const -9223372036854775808)
  (func (export "greatest") (result i64)
    i64.const 9223372036854775807)
  (func (export "least32") (result i32)
    i32.const -2147483648))
