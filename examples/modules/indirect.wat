;; Calls through a table: of the right type under another name, of another type, of an entry that wasn't set, and
;; outside the table. Frames: the 256th is there, the 257th isn't.
;; line: types 4 funcs 5 tables 1 memories 0 globals 0 exports 2 start - elems 1 datas 0 size 116
;; call: at 10 0 = value 10 left 7
;; call: at 10 1 = trap Signature left 8
;; call: at 10 2 = value 12 left 7
;; call: at 10 3 = trap Null left 8
;; call: at 10 4 = trap Null left 8
;; call: at 10 5 = trap Table left 8
;; call: at 10 4294967295 = trap Table left 8
;; call: count 2043 255 = value 256 left 0
;; call: count 2042 255 = spent left 0
;; call: count 3000 256 = trap Depth left 1464
(module
  (type $number (func (result i32)))
  (type $same (func (result i32)))
  (type $long (func (result i64)))
  (type $at (func (param i32) (result i32)))
  (table 5 funcref)
  (elem (i32.const 0) $ten $long_ten $twelve)
  (func $ten (type $number)
    i32.const 10)
  (func $long_ten (type $long)
    i64.const 10)
  (func $twelve (type $same)
    i32.const 12)
  (func (export "at") (type $at)
    local.get 0
    call_indirect (type $number))
  (func $count (export "count") (type $at)
    local.get 0
    if (result i32)
      local.get 0
      i32.const 1
      i32.sub
      call $count
      i32.const 1
      i32.add
    else
      i32.const 1
    end))
