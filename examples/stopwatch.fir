FIRRTL version 3.0.0
circuit Stopwatch :
  module Digit : @[Stopwatch.scala 6:7]
    input clock : Clock @[Stopwatch.scala 6:7]
    input reset : UInt<1> @[Stopwatch.scala 6:7]
    output io : { flip step : UInt<1>, flip last : UInt<4>, value : UInt<4>, carry : UInt<1>} @[Stopwatch.scala 7:14]

    regreset value : UInt<4>, clock, reset, UInt<4>(0h0) @[Stopwatch.scala 14:24]
    node wraps = eq(value, io.last) @[Stopwatch.scala 15:21]
    when io.step : @[Stopwatch.scala 16:18]
      node _value_T = add(value, UInt<1>(0h1)) @[Stopwatch.scala 17:37]
      node _value_T_1 = tail(_value_T, 1) @[Stopwatch.scala 17:37]
      node _value_T_2 = mux(wraps, UInt<1>(0h0), _value_T_1) @[Stopwatch.scala 17:17]
      connect value, _value_T_2 @[Stopwatch.scala 17:11]
    connect io.value, value @[Stopwatch.scala 19:12]
    node _io_carry_T = and(io.step, wraps) @[Stopwatch.scala 20:23]
    connect io.carry, _io_carry_T @[Stopwatch.scala 20:12]

  module Stopwatch : @[Stopwatch.scala 23:7]
    input clock : Clock @[Stopwatch.scala 23:7]
    input reset : UInt<1> @[Stopwatch.scala 23:7]
    output io : { flip start : UInt<1>, flip stop : UInt<1>, time : { tens : UInt<4>, ones : UInt<4>}, minute : UInt<1>} @[Stopwatch.scala 24:14]

    regreset running : UInt<1>, clock, reset, UInt<1>(0h0) @[Stopwatch.scala 33:26]
    when io.start : @[Stopwatch.scala 34:19]
      connect running, UInt<1>(0h1) @[Stopwatch.scala 35:13]
    else when io.stop : @[Stopwatch.scala 36:24]
      connect running, UInt<1>(0h0) @[Stopwatch.scala 37:13]
    inst ones of Digit @[Stopwatch.scala 40:20]
    connect ones.clock, clock
    connect ones.reset, reset
    connect ones.io.step, running @[Stopwatch.scala 41:16]
    connect ones.io.last, UInt<4>(0h9) @[Stopwatch.scala 42:16]
    inst tens of Digit @[Stopwatch.scala 43:20]
    connect tens.clock, clock
    connect tens.reset, reset
    connect tens.io.step, ones.io.carry @[Stopwatch.scala 44:16]
    connect tens.io.last, UInt<3>(0h5) @[Stopwatch.scala 45:16]
    connect io.time.ones, ones.io.value @[Stopwatch.scala 46:16]
    connect io.time.tens, tens.io.value @[Stopwatch.scala 47:16]
    connect io.minute, tens.io.carry @[Stopwatch.scala 48:13]
