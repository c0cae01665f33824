;; A signal of a payload of eight bytes: its bits taken out and put in, the first byte lowest.
;; line: types 3 funcs 3 tables 0 memories 1 globals 0 exports 3 start - elems 0 datas 0 size 131
(module
  (memory (export "payload") 1 1)
  (func $mask (param $size i64) (result i64)
    i64.const -1
    i64.const 64
    local.get $size
    i64.sub
    i64.shr_u)
  (func (export "get") (param $first i64) (param $size i64) (result i64)
    i32.const 0
    i64.load
    local.get $first
    i64.shr_u
    local.get $size
    call $mask
    i64.and)
  (func (export "put") (param $first i64) (param $size i64) (param $value i64)
    i32.const 0
    i32.const 0
    i64.load
    local.get $size
    call $mask
    local.get $first
    i64.shl
    i64.const -1
    i64.xor
    i64.and
    local.get $value
    local.get $size
    call $mask
    i64.and
    local.get $first
    i64.shl
    i64.or
    i64.store))
