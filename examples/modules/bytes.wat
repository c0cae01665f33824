;; Loads and stores of each width: the byte order of numbers turned, and bytes with their sign.
;; line: types 4 funcs 4 tables 0 memories 1 globals 0 exports 4 start - elems 0 datas 0 size 174
(module
  (memory 1)
  (func (export "turn16") (param $n i32) (result i32)
    i32.const 0
    local.get $n
    i32.store16
    i32.const 0
    i32.const 0
    i32.load8_u offset=1
    i32.store8 offset=2
    i32.const 0
    i32.const 0
    i32.load8_u
    i32.store8 offset=3
    i32.const 0
    i32.load16_u offset=2 align=1)
  (func (export "signed8") (param $n i32) (result i64)
    i32.const 65535
    local.get $n
    i32.store8
    i32.const 65535
    i64.load8_s)
  (func (export "signed16") (param $n i64) (result i32)
    i32.const 16
    local.get $n
    i64.store16
    i32.const 16
    i32.load16_s)
  (func (export "high32") (param $n i64) (result i64)
    i32.const 300
    local.get $n
    i64.store align=4
    i32.const 300
    i64.load32_s offset=4 align=2))
