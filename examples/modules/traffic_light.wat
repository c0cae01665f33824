;; A traffic light with every section of the profile: phases in a table of functions, their times in memory.
;; line: types 3 funcs 9 tables 1 memories 1 globals 2 exports 6 start 8 elems 2 datas 2 size 273
(module
  (type $phase (func (result i32)))
  (table 8 funcref)
  (memory (export "memory") 1 1)
  (global $current (export "current") (mut i32) (i32.const 0))
  (global $phases i32 (i32.const 4))
  (elem (i32.const 0) $red $red_amber $green)
  (elem (i32.const 3) $amber)
  (data (i32.const 0) "\1e\02\14\03")
  (data (i32.const 16) "red red-amber green amber")
  (func $red (type $phase) i32.const 4)
  (func $red_amber (type $phase) i32.const 6)
  (func $green (type $phase) i32.const 1)
  (func $amber (type $phase) i32.const 2)
  (func $lamps (export "lamps") (type $phase)
    global.get $current
    call_indirect (type $phase))
  (func (export "seconds") (type $phase)
    global.get $current
    i32.load8_u)
  (func $next (export "next")
    global.get $current
    i32.const 1
    i32.add
    global.get $phases
    i32.rem_u
    global.set $current)
  (func (export "may") (param $turn i32) (result i32)
    block $refused
      block $wait
        block $go
          global.get $current
          br_table $refused $wait $go $wait
        end
        i32.const 1
        return
      end
      local.get $turn
      return
    end
    i32.const 0)
  (func $begin
    call $next
    call $lamps
    i32.const 6
    i32.ne
    if
      unreachable
    end
    i32.const 0
    global.set $current)
  (start $begin))
