FIRRTL version 3.0.0
circuit Calculator :
  module Calculator : @[Calculator.scala 9:7]
    input clock : Clock @[Calculator.scala 9:7]
    input reset : UInt<1> @[Calculator.scala 9:7]
    output io : { flip op : UInt<2>, flip value : UInt<16>, top : UInt<16>, depth : UInt<4>, error : UInt<1>} @[Calculator.scala 10:14]

    regreset top : UInt<16>, clock, reset, UInt<16>(0h0) @[Calculator.scala 18:22]
    regreset depth : UInt<4>, clock, reset, UInt<4>(0h0) @[Calculator.scala 19:24]
    regreset error : UInt<1>, clock, reset, UInt<1>(0h0) @[Calculator.scala 20:24]
    mem below : @[Calculator.scala 21:20]
      data-type => UInt<16>
      depth => 8
      read-latency => 0
      write-latency => 1
      reader => second
      writer => push
      read-under-write => undefined
    node _less_T = sub(depth, UInt<1>(0h1)) @[Calculator.scala 22:22]
    node less = tail(_less_T, 1) @[Calculator.scala 22:22]
    node _second_addr_T = bits(less, 2, 0) @[Calculator.scala 23:23]
    connect below.second.clk, clock @[Calculator.scala 23:23]
    connect below.second.en, UInt<1>(0h1) @[Calculator.scala 23:23]
    connect below.second.addr, _second_addr_T @[Calculator.scala 23:23]
    node _push_addr_T = bits(depth, 2, 0) @[Calculator.scala 26:12]
    connect below.push.clk, clock @[Calculator.scala 26:12]
    connect below.push.en, UInt<1>(0h0) @[Calculator.scala 26:12]
    connect below.push.addr, _push_addr_T @[Calculator.scala 26:12]
    connect below.push.mask, UInt<1>(0h1) @[Calculator.scala 26:12]
    connect below.push.data, top @[Calculator.scala 26:12]
    node _T = eq(io.op, UInt<2>(0h1)) @[Calculator.scala 24:14]
    node _T_1 = neq(io.op, UInt<2>(0h0)) @[Calculator.scala 33:20]
    when _T : @[Calculator.scala 24:27]
      node _T_2 = lt(depth, UInt<4>(0h8)) @[Calculator.scala 25:16]
      when _T_2 : @[Calculator.scala 25:23]
        connect below.push.en, UInt<1>(0h1) @[Calculator.scala 26:12]
        connect top, io.value @[Calculator.scala 27:11]
        node _depth_T = add(depth, UInt<1>(0h1)) @[Calculator.scala 28:22]
        node _depth_T_1 = tail(_depth_T, 1) @[Calculator.scala 28:22]
        connect depth, _depth_T_1 @[Calculator.scala 28:13]
      else :
        connect error, UInt<1>(0h1) @[Calculator.scala 30:13]
    else when _T_1 : @[Calculator.scala 33:35]
      node _T_3 = geq(depth, UInt<4>(0h2)) @[Calculator.scala 34:16]
      when _T_3 : @[Calculator.scala 34:24]
        node _sum_T = add(below.second.data, top) @[Calculator.scala 35:24]
        node sum = tail(_sum_T, 1) @[Calculator.scala 35:24]
        node product = mul(below.second.data, top) @[Calculator.scala 36:28]
        node _top_T = eq(io.op, UInt<2>(0h2)) @[Calculator.scala 37:23]
        node _top_T_1 = mux(_top_T, sum, product) @[Calculator.scala 37:17]
        connect top, _top_T_1 @[Calculator.scala 37:11]
        connect depth, less @[Calculator.scala 38:13]
      else :
        connect error, UInt<1>(0h1) @[Calculator.scala 40:13]
    connect io.top, top @[Calculator.scala 43:10]
    connect io.depth, depth @[Calculator.scala 44:12]
    connect io.error, error @[Calculator.scala 45:12]
