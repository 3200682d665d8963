FIRRTL version 3.0.0
circuit GCD :%[[
  {
    "class":"firrtl.transforms.NoDedupAnnotation",
    "target":"~GCD|GCD"
  }
]]
  module GCD : @[GCD.scala 15:7]
    input clock : Clock @[GCD.scala 15:7]
    input reset : UInt<1> @[GCD.scala 15:7]
    output io : { flip value1 : UInt<16>, flip value2 : UInt<16>, flip loadingValues : UInt<1>, outputGCD : UInt<16>, outputValid : UInt<1>} @[GCD.scala 16:14]

    reg x : UInt, clock @[GCD.scala 24:15]
    reg y : UInt, clock @[GCD.scala 25:15]
    node _T = gt(x, y) @[GCD.scala 27:10]
    when _T : @[GCD.scala 27:15]
      node _x_T = sub(x, y) @[GCD.scala 27:24]
      node _x_T_1 = tail(_x_T, 1) @[GCD.scala 27:24]
      connect x, _x_T_1 @[GCD.scala 27:19]
    else :
      node _y_T = sub(y, x) @[GCD.scala 28:25]
      node _y_T_1 = tail(_y_T, 1) @[GCD.scala 28:25]
      connect y, _y_T_1 @[GCD.scala 28:20]
    when io.loadingValues : @[GCD.scala 30:26]
      connect x, io.value1 @[GCD.scala 31:7]
      connect y, io.value2 @[GCD.scala 32:7]
    connect io.outputGCD, x @[GCD.scala 35:16]
    node _io_outputValid_T = eq(y, UInt<1>(0h0)) @[GCD.scala 36:23]
    connect io.outputValid, _io_outputValid_T @[GCD.scala 36:18]
