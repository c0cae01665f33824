;; Four operations in a table, and a call through the table that chooses one of them.
;; line: types 2 funcs 5 tables 1 memories 0 globals 0 exports 1 start - elems 1 datas 0 size 109
(module
  (type $binary (func (param i32 i32) (result i32)))
  (table $operations 4 4 funcref)
  (elem (i32.const 0) $add $subtract $multiply $divide)
  (func $add (type $binary) local.get 0 local.get 1 i32.add)
  (func $subtract (type $binary) local.get 0 local.get 1 i32.sub)
  (func $multiply (type $binary) local.get 0 local.get 1 i32.mul)
  (func $divide (type $binary) local.get 0 local.get 1 i32.div_s)
  (func (export "apply") (param $operation i32) (param $a i32) (param $b i32) (result i32)
    local.get $a
    local.get $b
    local.get $operation
    call_indirect (type $binary)))
