;; A function that adds two numbers.
;; line: types 1 funcs 1 tables 0 memories 0 globals 0 exports 1 start - elems 0 datas 0 size 41
;; call: add 3 40 2 = value 42 left 0
(module
  (func (export "add") (param $a i32) (param $b i32) (result i32)
    local.get $a
    local.get $b
    i32.add))
