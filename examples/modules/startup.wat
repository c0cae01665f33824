;; A start function, the second one of the module, that fills a table of squares in memory.
;; line: types 2 funcs 2 tables 0 memories 1 globals 0 exports 1 start 1 elems 0 datas 0 size 96
;; call: square 3585 12 = value 144 left 3579
;; call: square 3584 12 = start spent left 0
(module
  (memory 1)
  (func (export "square") (param $n i32) (result i32)
    local.get $n
    i32.const 255
    i32.and
    i32.const 2
    i32.shl
    i32.load)
  (func $fill
    (local $n i32)
    loop $next
      local.get $n
      i32.const 2
      i32.shl
      local.get $n
      local.get $n
      i32.mul
      i32.store
      local.get $n
      i32.const 1
      i32.add
      local.tee $n
      i32.const 256
      i32.lt_u
      br_if $next
    end)
  (start $fill))
