;; A gateway that sleeps. Woken up at terminal FRONT, it wakes the bus at REAR; frames go both ways. A frame of identifier
;; 0x3ff from FRONT tells all to sleep: it is handed on, and once it is sent at REAR the gateway sleeps.
(module
  (memory (export "memory") 1)

  (data (i32.const 0) "\f0\00\00\00\08\00\00\00") ;; Sleep
  (data (i32.const 8) "\42\00\00\00\08\00\00\00") ;; Wakeup

  ;; How many bytes are to be sent at FRONT; they stand from 16384 on. Then the same for REAR, from 32768 on.
  (global $front (mut i32) (i32.const 0))
  (global $rear (mut i32) (i32.const 0))

  ;; Numbers and bytes are exchanged from 1024 on: 64 bytes, and the bytes of operations behind them at 1088.
  (func (export "bench_area") (param $size i32) (result i32) (i32.const 1024))

  ;; ---- the life of the unit: it begins asleep at both terminals

  (func (export "fmi3InstantiateCoSimulation") (result i32)
    (call $sleep)
    (i32.const 0))
  (func (export "fmi3EnterInitializationMode") (result i32) (i32.const 0))
  (func (export "fmi3ExitInitializationMode") (result i32) (i32.const 0))
  (func (export "fmi3EnterEventMode") (result i32) (i32.const 0))
  (func (export "fmi3EnterStepMode") (result i32) (i32.const 0))
  (func (export "fmi3DoStep") (param $moment i64) (param $size i64) (result i32) (i32.const 0))
  (func (export "fmi3Terminate") (result i32) (i32.const 0))
  (func (export "fmi3FreeInstance"))

  ;; ---- what comes in: bytes for terminal FRONT as binary 1, and for terminal REAR as binary 5

  (func (export "fmi3SetClock") (param $reference i32) (param $value i32) (result i32) (i32.const 0))

  ;; Looks at one operation after the other: a code and a length of four bytes each, and what the code asks for.
  (func (export "fmi3SetBinary") (param $reference i32) (param $length i32) (result i32)
    (local $at i32) (local $end i32)
    (local.set $at (i32.const 1088))
    (local.set $end (i32.add (i32.const 1088) (local.get $length)))
    (block $done
      (loop $next
        (br_if $done (i32.ge_u (local.get $at) (local.get $end)))
        (call $take (local.get $reference) (local.get $at))
        (local.set $at (i32.add (local.get $at) (i32.load offset=4 (local.get $at))))
        (br $next)))
    (i32.const 0))

  ;; By the code: a Wakeup, a frame, or the Confirm that a frame was sent.
  (func $take (param $reference i32) (param $at i32)
    (local $front i32)
    (local.set $front (i32.eq (local.get $reference) (i32.const 1)))
    (if (i32.and (local.get $front) (i32.eq (i32.load (local.get $at)) (i32.const 0x42)))
      (then (call $to_rear (i32.const 8) (i32.const 8))))
    (if (i32.eq (i32.load (local.get $at)) (i32.const 0x10))
      (then
        (if (local.get $front)
          (then (call $to_rear (local.get $at) (i32.load offset=4 (local.get $at))))
          (else (call $to_front (local.get $at) (i32.load offset=4 (local.get $at)))))))
    (if (i32.and (i32.eq (i32.load (local.get $at)) (i32.const 0x20))
                 (i32.eq (i32.load offset=8 (local.get $at)) (i32.const 0x3ff)))
      (then (call $sleep))))

  (func $sleep
    (call $to_front (i32.const 0) (i32.const 8))
    (call $to_rear (i32.const 0) (i32.const 8)))

  (func $to_front (param $from i32) (param $length i32)
    (call $copy (i32.add (i32.const 16384) (global.get $front)) (local.get $from) (local.get $length))
    (global.set $front (i32.add (global.get $front) (local.get $length))))

  (func $to_rear (param $from i32) (param $length i32)
    (call $copy (i32.add (i32.const 32768) (global.get $rear)) (local.get $from) (local.get $length))
    (global.set $rear (i32.add (global.get $rear) (local.get $length))))

  ;; ---- what goes out: clock 2 and binary 3 for FRONT, clock 6 and binary 7 for REAR

  (func (export "fmi3GetClock") (param $reference i32) (result i32)
    (i32.store (i32.const 1024)
      (i32.ne (i32.const 0)
        (select (global.get $front) (global.get $rear) (i32.eq (local.get $reference) (i32.const 2)))))
    (i32.const 0))

  (func (export "fmi3GetBinary") (param $reference i32) (result i32)
    (if (i32.eq (local.get $reference) (i32.const 3))
      (then
        (i32.store (i32.const 1024) (global.get $front))
        (call $copy (i32.const 1088) (i32.const 16384) (global.get $front))
        (global.set $front (i32.const 0)))
      (else
        (i32.store (i32.const 1024) (global.get $rear))
        (call $copy (i32.const 1088) (i32.const 32768) (global.get $rear))
        (global.set $rear (i32.const 0))))
    (i32.const 0))

  ;; Neither another update nor the end.
  (func (export "fmi3UpdateDiscreteStates") (result i32)
    (i64.store (i32.const 1024) (i64.const 0))
    (i32.const 0))

  ;; There is no countdown clock, so this is never asked.
  (func (export "fmi3GetIntervalFraction") (param $reference i32) (result i32) (i32.const 0))

  (func $copy (param $to i32) (param $from i32) (param $length i32)
    (block $done
      (loop $next
        (br_if $done (i32.eqz (local.get $length)))
        (i32.store8 (local.get $to) (i32.load8_u (local.get $from)))
        (local.set $to (i32.add (local.get $to) (i32.const 1)))
        (local.set $from (i32.add (local.get $from) (i32.const 1)))
        (local.set $length (i32.sub (local.get $length) (i32.const 1)))
        (br $next)))))
