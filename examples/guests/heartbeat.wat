;; line: types 5 funcs 15 tables 0 memories 1 globals 2 exports 16 start - elems 0 datas 1 size 596
;; A unit that sends a frame of identifier 0x123 each 10 ms, with a byte that counts the frames, and takes whatever comes.
;; Its description is heartbeat.toml: clocks 0 (in), 2 (out) and 100 (countdown), binaries 1 (in) and 3 (out).
(module
  (memory (export "memory") 1)

  ;; The operation that it sends, at 0: code 0x10, 17 bytes in all, the identifier, base format, no remote frame, one
  ;; byte of data, and the byte.
  (data (i32.const 0) "\10\00\00\00\11\00\00\00\23\01\00\00\00\00\01\00\00")

  (global $area i32 (i32.const 1024))       ;; where numbers and bytes are exchanged
  (global $sends (mut i32) (i32.const 0))   ;; whether a frame is to be sent

  ;; ---- the life of the unit

  ;; The area: what is asked for is 64 bytes and the greatest maxSize, which is 4,096. They end within the first page.
  (func (export "bench_area") (param $size i32) (result i32)
    global.get $area)

  (func (export "fmi3InstantiateCoSimulation") (result i32)
    i32.const 0)

  (func (export "fmi3EnterInitializationMode") (result i32)
    i32.const 0)

  (func (export "fmi3ExitInitializationMode") (result i32)
    i32.const 0)

  (func (export "fmi3EnterEventMode") (result i32)
    i32.const 0)

  (func (export "fmi3EnterStepMode") (result i32)
    i32.const 0)

  (func (export "fmi3DoStep") (param $moment i64) (param $size i64) (result i32)
    i32.const 0)

  (func (export "fmi3Terminate") (result i32)
    i32.const 0)

  (func (export "fmi3FreeInstance"))

  ;; ---- what comes in

  ;; Clock 100 is the time to send; clock 0 only says that bytes are coming.
  (func (export "fmi3SetClock") (param $reference i32) (param $value i32) (result i32)
    local.get $reference
    i32.const 100
    i32.eq
    if
      i32.const 1
      global.set $sends
    end
    i32.const 0)

  ;; The bytes stand at the area's byte 64. They aren't looked at here.
  (func (export "fmi3SetBinary") (param $reference i32) (param $length i32) (result i32)
    i32.const 0)

  ;; ---- what goes out

  ;; Clock 2 ticks where a frame is to be sent.
  (func (export "fmi3GetClock") (param $reference i32) (result i32)
    global.get $area
    global.get $sends
    i32.store
    i32.const 0)

  ;; Binary 3: 17 bytes, which are moved to the area's byte 64. Then the byte counts on.
  (func (export "fmi3GetBinary") (param $reference i32) (result i32)
    global.get $area
    i32.const 17
    i32.store
    global.get $area
    i32.const 0
    i64.load
    i64.store offset=64
    global.get $area
    i32.const 0
    i64.load offset=8
    i64.store offset=72
    global.get $area
    i32.const 0
    i32.load8_u offset=16
    i32.store8 offset=80
    i32.const 0
    i32.const 0
    i32.load8_u offset=16
    i32.const 1
    i32.add
    i32.store8 offset=16
    i32.const 0
    global.set $sends
    i32.const 0)

  ;; Neither another update nor the end.
  (func (export "fmi3UpdateDiscreteStates") (result i32)
    global.get $area
    i64.const 0
    i64.store
    i32.const 0)

  ;; The next tick of clock 100 is in 10/1000 seconds. Qualifier 2: the interval is a new one.
  (func (export "fmi3GetIntervalFraction") (param $reference i32) (result i32)
    global.get $area
    i64.const 10
    i64.store
    global.get $area
    i64.const 1000
    i64.store offset=8
    global.get $area
    i32.const 2
    i32.store offset=16
    i32.const 0))
