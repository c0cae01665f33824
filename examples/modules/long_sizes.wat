;; Sizes of sections and bodies in five bytes each, where the shortest spelling has one.
;; line: types 1 funcs 2 tables 0 memories 0 globals 0 exports 2 start - elems 0 datas 0 size 77
;; options: --no-canonicalize-leb128s
(module
  (func $even (export "even") (param $n i32) (result i32)
    local.get $n
    i32.eqz
    if (result i32)
      i32.const 1
    else
      local.get $n
      i32.const 1
      i32.sub
      call $odd
    end)
  (func $odd (export "odd") (param $n i32) (result i32)
    local.get $n
    if (result i32)
      local.get $n
      i32.const 1
      i32.sub
      call $even
    else
      i32.const 0
    end))
