;; The seat's control unit, which sleeps until its bus is woken up.
;; Woken up, it says so by a frame of identifier 0x310. Told to sleep by a frame of identifier 0x3ff, it does.
(module
  (memory (export "memory") 1)

  ;; Sleep, which is this project's own operation: code 0xf0 and nothing else.
  (data (i32.const 0) "\f0\00\00\00\08\00\00\00")
  ;; What it sends when it wakes up: code 0x10, 16 bytes in all, the identifier, base format, no remote frame, no data.
  (data (i32.const 8) "\10\00\00\00" "\10\00\00\00" "\10\03\00\00" "\00" "\00" "\00\00")

  (global $length (mut i32) (i32.const 0)) ;; of the operations that are to be sent; they stand from 16384 on

  ;; Numbers and bytes are exchanged from 1024 on: 64 bytes, and the bytes of operations behind them at 1088.
  (func (export "bench_area") (param $size i32) (result i32) (i32.const 1024))

  ;; ---- the life of the unit: it begins asleep

  (func (export "fmi3InstantiateCoSimulation") (result i32)
    (call $say (i32.const 0) (i32.const 8))
    (i32.const 0))
  (func (export "fmi3EnterInitializationMode") (result i32) (i32.const 0))
  (func (export "fmi3ExitInitializationMode") (result i32) (i32.const 0))
  (func (export "fmi3EnterEventMode") (result i32) (i32.const 0))
  (func (export "fmi3EnterStepMode") (result i32) (i32.const 0))
  (func (export "fmi3DoStep") (param $moment i64) (param $size i64) (result i32) (i32.const 0))
  (func (export "fmi3Terminate") (result i32) (i32.const 0))
  (func (export "fmi3FreeInstance"))

  ;; ---- what comes in

  (func (export "fmi3SetClock") (param $reference i32) (param $value i32) (result i32) (i32.const 0))

  ;; Looks at one operation after the other: a code and a length of four bytes each, and what the code asks for.
  (func (export "fmi3SetBinary") (param $reference i32) (param $length i32) (result i32)
    (local $at i32) (local $end i32)
    (local.set $at (i32.const 1088))
    (local.set $end (i32.add (i32.const 1088) (local.get $length)))
    (block $done
      (loop $next
        (br_if $done (i32.ge_u (local.get $at) (local.get $end)))
        (call $take (local.get $reference) (local.get $at))
        (local.set $at (i32.add (local.get $at) (i32.load offset=4 (local.get $at))))
        (br $next)))
    (i32.const 0))

  ;; Wakeup is code 0x42. A frame has its identifier from byte 8 on.
  (func $take (param $reference i32) (param $at i32)
    (if (i32.eq (i32.load (local.get $at)) (i32.const 0x42))
      (then (call $say (i32.const 8) (i32.const 16))))
    (if (i32.eq (i32.load (local.get $at)) (i32.const 0x10))
      (then
        (if (i32.eq (i32.load offset=8 (local.get $at)) (i32.const 0x3ff))
          (then (call $say (i32.const 0) (i32.const 8)))))))

  ;; ---- what goes out

  (func (export "fmi3GetClock") (param $reference i32) (result i32)
    (i32.store (i32.const 1024) (i32.ne (global.get $length) (i32.const 0)))
    (i32.const 0))

  (func (export "fmi3GetBinary") (param $reference i32) (result i32)
    (i32.store (i32.const 1024) (global.get $length))
    (call $copy (i32.const 1088) (i32.const 16384) (global.get $length))
    (global.set $length (i32.const 0))
    (i32.const 0))

  ;; Neither another update nor the end.
  (func (export "fmi3UpdateDiscreteStates") (result i32)
    (i64.store (i32.const 1024) (i64.const 0))
    (i32.const 0))

  ;; There is no countdown clock, so this is never asked.
  (func (export "fmi3GetIntervalFraction") (param $reference i32) (result i32) (i32.const 0))

  ;; Appends an operation to those that are to be sent.
  (func $say (param $from i32) (param $length i32)
    (call $copy (i32.add (i32.const 16384) (global.get $length)) (local.get $from) (local.get $length))
    (global.set $length (i32.add (global.get $length) (local.get $length))))

  (func $copy (param $to i32) (param $from i32) (param $length i32)
    (block $done
      (loop $next
        (br_if $done (i32.eqz (local.get $length)))
        (i32.store8 (local.get $to) (i32.load8_u (local.get $from)))
        (local.set $to (i32.add (local.get $to) (i32.const 1)))
        (local.set $from (i32.add (local.get $from) (i32.const 1)))
        (local.set $length (i32.sub (local.get $length) (i32.const 1)))
        (br $next)))))
