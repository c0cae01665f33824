;; A counter in a global that code may set, and its step in one that it may not; all are exported.
;; line: types 2 funcs 2 tables 0 memories 0 globals 2 exports 4 start - elems 0 datas 0 size 94
(module
  (global $count (export "count") (mut i64) (i64.const 0))
  (global $step (export "step") i64 (i64.const 3))
  (func (export "advance") (result i64)
    global.get $count
    global.get $step
    i64.add
    global.set $count
    global.get $count)
  (func (export "reset")
    i64.const 0
    global.set $count))
