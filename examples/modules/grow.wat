;; A memory without pages that grows up to three, and what its growing answers.
;; line: types 2 funcs 3 tables 0 memories 1 globals 0 exports 4 start - elems 0 datas 0 size 92
;; call: pages 1 = value 0 left 0
;; call: grow 2 3 = value 0 left 0
;; call: grow 2 4 = value 4294967295 left 0
;; call: grow 2 4294967295 = value 4294967295 left 0
(module
  (memory (export "memory") 0 3)
  (func (export "pages") (result i32)
    memory.size)
  (func (export "grow") (param $pages i32) (result i32)
    local.get $pages
    memory.grow)
  (func (export "fits") (param $address i32) (result i32)
    local.get $address
    memory.size
    i32.const 16
    i32.shl
    i32.lt_u))
