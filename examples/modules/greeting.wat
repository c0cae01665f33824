;; Two texts in memory, one of them empty, under names of several scripts.
;; line: types 1 funcs 2 tables 0 memories 1 globals 0 exports 4 start - elems 0 datas 2 size 96
(module
  (memory (export "memory") 1 2)
  (data (i32.const 1024) "gr\c3\bc\c3\9fe\0a")
  (data (i32.const 2048) "")
  (func $length (export "l\c3\a4nge") (export "\e9\95\b7\e3\81\95") (result i32)
    i32.const 8)
  (func (export "") (result i32)
    i32.const 1024))
