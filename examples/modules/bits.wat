;; Bits counted, turned around and moved: the instructions on bits, at both widths.
;; line: types 3 funcs 6 tables 0 memories 0 globals 0 exports 6 start - elems 0 datas 0 size 149
(module
  (func (export "length") (param $n i64) (result i64)
    i64.const 64
    local.get $n
    i64.clz
    i64.sub)
  (func (export "lowest") (param $n i64) (result i64)
    local.get $n
    i64.ctz)
  (func (export "parity") (param $n i32) (result i32)
    local.get $n
    i32.popcnt
    i32.const 1
    i32.and)
  (func (export "turn") (param $n i32) (param $by i32) (result i32)
    local.get $n
    local.get $by
    i32.rotl
    local.get $n
    local.get $by
    i32.rotr
    i32.or)
  (func (export "gray") (param $n i64) (result i64)
    local.get $n
    local.get $n
    i64.const 1
    i64.shr_u
    i64.xor)
  (func (export "halve") (param $n i32) (result i32)
    local.get $n
    i32.const 1
    i32.shr_s))
