;; The factorial: a function that calls itself in the second list of an if with a result.
;; line: types 1 funcs 1 tables 0 memories 0 globals 0 exports 1 start - elems 0 datas 0 size 60
;; call: factorial 184 20 = value 2432902008176640000 left 0
;; call: factorial 3000 256 = trap Depth left 952
(module
  (func $factorial (export "factorial") (param $n i64) (result i64)
    local.get $n
    i64.eqz
    if (result i64)
      i64.const 1
    else
      local.get $n
      local.get $n
      i64.const 1
      i64.sub
      call $factorial
      i64.mul
    end))
