FIRRTL version 3.0.0
circuit M :
  module M :
    input clock : Clock
    input reset : UInt<1>
    output out : UInt<4>
    regreset r : UInt<4>, clock, reset, UInt<4>(0)
    connect r, tail(add(r, UInt<4>(1)), 1)
    connect out, r
