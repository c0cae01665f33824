;; Names of functions and locals in a custom section, which the shortest spelling leaves out.
;; line: types 1 funcs 1 tables 0 memories 0 globals 0 exports 1 start - elems 0 datas 0 size 55
;; options: --debug-names
(module $average
  (func $halved_sum (export "average") (param $left i32) (param $right i32) (result i32)
    (local $sum i64)
    local.get $left
    i64.extend_i32_u
    local.get $right
    i64.extend_i32_u
    i64.add
    local.tee $sum
    i64.const 1
    i64.shr_u
    i32.wrap_i64))
