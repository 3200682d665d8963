FIRRTL version 3.0.0
circuit Rv32Pipe :
  module Decoder :
    input clock : Clock
    input reset : UInt<1>
    output io : { flip inst : UInt<32>, control : { legal : UInt<1>, rs1 : UInt<5>, rs2 : UInt<5>, rd : UInt<5>, writes : UInt<1>, immediate : UInt<32>, source : UInt<2>, constant : UInt<1>, operation : UInt<4>, funct3 : UInt<3>, muldiv : UInt<1>, branch : UInt<1>, jump : UInt<1>, indirect : UInt<1>, load : UInt<1>, store : UInt<1>, ecall : UInt<1>, ebreak : UInt<1>}}
    node opcode = bits(io.inst, 6, 0)
    node funct3 = bits(io.inst, 14, 12)
    node funct7 = bits(io.inst, 31, 25)
    node plain = eq(funct7, UInt<7>(0h0))
    node other = eq(funct7, UInt<7>(0h20))
    node right = eq(funct3, UInt<3>(0h5))
    node left = eq(funct3, UInt<3>(0h1))
    node _immediateI_T = bits(io.inst, 31, 31)
    node _immediateI_T_1 = mux(_immediateI_T, UInt<20>(0hfffff), UInt<20>(0h0))
    node _immediateI_T_2 = bits(io.inst, 31, 20)
    node immediateI = cat(_immediateI_T_1, _immediateI_T_2)
    node _immediateS_T = bits(io.inst, 31, 31)
    node _immediateS_T_1 = mux(_immediateS_T, UInt<20>(0hfffff), UInt<20>(0h0))
    node _immediateS_T_2 = bits(io.inst, 31, 25)
    node _immediateS_T_3 = bits(io.inst, 11, 7)
    node _immediateS_T_4 = cat(_immediateS_T_2, _immediateS_T_3)
    node immediateS = cat(_immediateS_T_1, _immediateS_T_4)
    node _immediateB_T = bits(io.inst, 31, 31)
    node _immediateB_T_1 = mux(_immediateB_T, UInt<20>(0hfffff), UInt<20>(0h0))
    node _immediateB_T_2 = bits(io.inst, 7, 7)
    node _immediateB_T_3 = bits(io.inst, 30, 25)
    node _immediateB_T_4 = bits(io.inst, 11, 8)
    node _immediateB_T_5 = cat(_immediateB_T_4, UInt<1>(0h0))
    node _immediateB_T_6 = cat(_immediateB_T_3, _immediateB_T_5)
    node _immediateB_T_7 = cat(_immediateB_T_2, _immediateB_T_6)
    node immediateB = cat(_immediateB_T_1, _immediateB_T_7)
    node _immediateU_T = bits(io.inst, 31, 12)
    node immediateU = cat(_immediateU_T, UInt<12>(0h0))
    node _immediateJ_T = bits(io.inst, 31, 31)
    node _immediateJ_T_1 = mux(_immediateJ_T, UInt<12>(0hfff), UInt<12>(0h0))
    node _immediateJ_T_2 = bits(io.inst, 19, 12)
    node _immediateJ_T_3 = bits(io.inst, 20, 20)
    node _immediateJ_T_4 = bits(io.inst, 30, 21)
    node _immediateJ_T_5 = cat(_immediateJ_T_4, UInt<1>(0h0))
    node _immediateJ_T_6 = cat(_immediateJ_T_3, _immediateJ_T_5)
    node _immediateJ_T_7 = cat(_immediateJ_T_2, _immediateJ_T_6)
    node immediateJ = cat(_immediateJ_T_1, _immediateJ_T_7)
    wire control : { legal : UInt<1>, rs1 : UInt<5>, rs2 : UInt<5>, rd : UInt<5>, writes : UInt<1>, immediate : UInt<32>, source : UInt<2>, constant : UInt<1>, operation : UInt<4>, funct3 : UInt<3>, muldiv : UInt<1>, branch : UInt<1>, jump : UInt<1>, indirect : UInt<1>, load : UInt<1>, store : UInt<1>, ecall : UInt<1>, ebreak : UInt<1>}
    connect control.legal, UInt<1>(0h0)
    connect control.rs1, UInt<5>(0h0)
    connect control.rs2, UInt<5>(0h0)
    connect control.rd, UInt<5>(0h0)
    connect control.writes, UInt<1>(0h0)
    connect control.immediate, immediateI
    connect control.source, UInt<2>(0h0)
    connect control.constant, UInt<1>(0h0)
    connect control.operation, UInt<4>(0h0)
    connect control.funct3, funct3
    connect control.muldiv, UInt<1>(0h0)
    connect control.branch, UInt<1>(0h0)
    connect control.jump, UInt<1>(0h0)
    connect control.indirect, UInt<1>(0h0)
    connect control.load, UInt<1>(0h0)
    connect control.store, UInt<1>(0h0)
    connect control.ecall, UInt<1>(0h0)
    connect control.ebreak, UInt<1>(0h0)
    node _when_T = eq(opcode, UInt<7>(0h37))
    when _when_T :
      connect control.legal, UInt<1>(0h1)
      connect control.immediate, immediateU
      connect control.source, UInt<2>(0h2)
      connect control.constant, UInt<1>(0h1)
      connect control.writes, UInt<1>(0h1)
    else :
      node _when_T_1 = eq(opcode, UInt<7>(0h17))
      when _when_T_1 :
        connect control.legal, UInt<1>(0h1)
        connect control.immediate, immediateU
        connect control.source, UInt<2>(0h1)
        connect control.constant, UInt<1>(0h1)
        connect control.writes, UInt<1>(0h1)
      else :
        node _when_T_2 = eq(opcode, UInt<7>(0h6f))
        when _when_T_2 :
          connect control.legal, UInt<1>(0h1)
          connect control.immediate, immediateJ
          connect control.jump, UInt<1>(0h1)
          connect control.writes, UInt<1>(0h1)
        else :
          node _when_T_3 = eq(opcode, UInt<7>(0h67))
          when _when_T_3 :
            node _control_legal_T = eq(funct3, UInt<3>(0h0))
            connect control.legal, _control_legal_T
            node _control_rs1_T = bits(io.inst, 19, 15)
            connect control.rs1, _control_rs1_T
            connect control.jump, UInt<1>(0h1)
            connect control.indirect, UInt<1>(0h1)
            connect control.writes, UInt<1>(0h1)
          else :
            node _when_T_4 = eq(opcode, UInt<7>(0h63))
            when _when_T_4 :
              node _control_legal_T_1 = bits(funct3, 2, 1)
              node _control_legal_T_2 = neq(_control_legal_T_1, UInt<2>(0h1))
              connect control.legal, _control_legal_T_2
              connect control.immediate, immediateB
              node _control_rs1_T_1 = bits(io.inst, 19, 15)
              connect control.rs1, _control_rs1_T_1
              node _control_rs2_T = bits(io.inst, 24, 20)
              connect control.rs2, _control_rs2_T
              connect control.branch, UInt<1>(0h1)
            else :
              node _when_T_5 = eq(opcode, UInt<7>(0h3))
              when _when_T_5 :
                node _control_legal_T_3 = lt(funct3, UInt<3>(0h3))
                node _control_legal_T_4 = bits(funct3, 2, 1)
                node _control_legal_T_5 = eq(_control_legal_T_4, UInt<2>(0h2))
                node _control_legal_T_6 = or(_control_legal_T_3, _control_legal_T_5)
                connect control.legal, _control_legal_T_6
                node _control_rs1_T_2 = bits(io.inst, 19, 15)
                connect control.rs1, _control_rs1_T_2
                connect control.constant, UInt<1>(0h1)
                connect control.load, UInt<1>(0h1)
                connect control.writes, UInt<1>(0h1)
              else :
                node _when_T_6 = eq(opcode, UInt<7>(0h23))
                when _when_T_6 :
                  node _control_legal_T_7 = lt(funct3, UInt<3>(0h3))
                  connect control.legal, _control_legal_T_7
                  connect control.immediate, immediateS
                  node _control_rs1_T_3 = bits(io.inst, 19, 15)
                  connect control.rs1, _control_rs1_T_3
                  node _control_rs2_T_1 = bits(io.inst, 24, 20)
                  connect control.rs2, _control_rs2_T_1
                  connect control.constant, UInt<1>(0h1)
                  connect control.store, UInt<1>(0h1)
                else :
                  node _when_T_7 = eq(opcode, UInt<7>(0h13))
                  when _when_T_7 :
                    node _control_legal_T_8 = or(plain, other)
                    node _control_legal_T_9 = mux(right, _control_legal_T_8, UInt<1>(0h1))
                    node _control_legal_T_10 = mux(left, plain, _control_legal_T_9)
                    connect control.legal, _control_legal_T_10
                    node _control_rs1_T_4 = bits(io.inst, 19, 15)
                    connect control.rs1, _control_rs1_T_4
                    connect control.constant, UInt<1>(0h1)
                    node _control_operation_T = and(right, other)
                    node _control_operation_T_1 = cat(_control_operation_T, funct3)
                    connect control.operation, _control_operation_T_1
                    connect control.writes, UInt<1>(0h1)
                  else :
                    node _when_T_8 = eq(opcode, UInt<7>(0h33))
                    when _when_T_8 :
                      node multiply = eq(funct7, UInt<7>(0h1))
                      node _control_legal_T_11 = or(plain, multiply)
                      node _control_legal_T_12 = eq(funct3, UInt<3>(0h0))
                      node _control_legal_T_13 = or(right, _control_legal_T_12)
                      node _control_legal_T_14 = and(other, _control_legal_T_13)
                      node _control_legal_T_15 = or(_control_legal_T_11, _control_legal_T_14)
                      connect control.legal, _control_legal_T_15
                      node _control_rs1_T_5 = bits(io.inst, 19, 15)
                      connect control.rs1, _control_rs1_T_5
                      node _control_rs2_T_2 = bits(io.inst, 24, 20)
                      connect control.rs2, _control_rs2_T_2
                      node _control_operation_T_2 = cat(other, funct3)
                      connect control.operation, _control_operation_T_2
                      connect control.muldiv, multiply
                      connect control.writes, UInt<1>(0h1)
                    else :
                      node _when_T_9 = eq(opcode, UInt<7>(0hf))
                      when _when_T_9 :
                        node _control_legal_T_16 = eq(funct3, UInt<3>(0h0))
                        connect control.legal, _control_legal_T_16
                      else :
                        node _when_T_10 = eq(io.inst, UInt<32>(0h73))
                        when _when_T_10 :
                          connect control.legal, UInt<1>(0h1)
                          connect control.rs1, UInt<5>(0ha)
                          connect control.ecall, UInt<1>(0h1)
                        else :
                          node _when_T_11 = eq(io.inst, UInt<32>(0h100073))
                          when _when_T_11 :
                            connect control.legal, UInt<1>(0h1)
                            connect control.ebreak, UInt<1>(0h1)
    node _when_T_12 = and(control.legal, control.writes)
    when _when_T_12 :
      node _control_rd_T = bits(io.inst, 11, 7)
      connect control.rd, _control_rd_T
    connect io.control, control

  module Alu :
    input clock : Clock
    input reset : UInt<1>
    output io : { flip operation : UInt<4>, flip a : UInt<32>, flip b : UInt<32>, out : UInt<32>}
    node _sum_T = add(io.a, io.b)
    node sum = tail(_sum_T, 1)
    node _difference_T = sub(io.a, io.b)
    node difference = tail(_difference_T, 1)
    node places = bits(io.b, 4, 0)
    node _left_T = dshl(io.a, places)
    node left = bits(_left_T, 31, 0)
    node right = dshr(io.a, places)
    node _arithmetic_T = asSInt(io.a)
    node _arithmetic_T_1 = dshr(_arithmetic_T, places)
    node arithmetic = asUInt(_arithmetic_T_1)
    node _less_T = asSInt(io.a)
    node _less_T_1 = asSInt(io.b)
    node less = lt(_less_T, _less_T_1)
    node below = lt(io.a, io.b)
    node _io_out_T = eq(io.operation, UInt<4>(0h8))
    node _io_out_T_1 = eq(io.operation, UInt<4>(0h1))
    node _io_out_T_2 = eq(io.operation, UInt<4>(0h2))
    node _io_out_T_3 = eq(io.operation, UInt<4>(0h3))
    node _io_out_T_4 = eq(io.operation, UInt<4>(0h4))
    node _io_out_T_5 = xor(io.a, io.b)
    node _io_out_T_6 = eq(io.operation, UInt<4>(0h5))
    node _io_out_T_7 = eq(io.operation, UInt<4>(0hd))
    node _io_out_T_8 = eq(io.operation, UInt<4>(0h6))
    node _io_out_T_9 = or(io.a, io.b)
    node _io_out_T_10 = eq(io.operation, UInt<4>(0h7))
    node _io_out_T_11 = and(io.a, io.b)
    node _io_out_T_12 = mux(_io_out_T_10, _io_out_T_11, sum)
    node _io_out_T_13 = mux(_io_out_T_8, _io_out_T_9, _io_out_T_12)
    node _io_out_T_14 = mux(_io_out_T_7, arithmetic, _io_out_T_13)
    node _io_out_T_15 = mux(_io_out_T_6, right, _io_out_T_14)
    node _io_out_T_16 = mux(_io_out_T_4, _io_out_T_5, _io_out_T_15)
    node _io_out_T_17 = mux(_io_out_T_3, below, _io_out_T_16)
    node _io_out_T_18 = mux(_io_out_T_2, less, _io_out_T_17)
    node _io_out_T_19 = mux(_io_out_T_1, left, _io_out_T_18)
    node _io_out_T_20 = mux(_io_out_T, difference, _io_out_T_19)
    connect io.out, _io_out_T_20

  module MulDiv :
    input clock : Clock
    input reset : UInt<1>
    output io : { flip funct3 : UInt<3>, flip a : UInt<32>, flip b : UInt<32>, out : UInt<32>}
    node unsigned = mul(io.a, io.b)
    node _signed_T = asSInt(io.a)
    node _signed_T_1 = asSInt(io.b)
    node _signed_T_2 = mul(_signed_T, _signed_T_1)
    node signed = asUInt(_signed_T_2)
    node _mixed_T = asSInt(io.a)
    node _mixed_T_1 = cvt(io.b)
    node _mixed_T_2 = mul(_mixed_T, _mixed_T_1)
    node mixed = asUInt(_mixed_T_2)
    node zero = eq(io.b, UInt<32>(0h0))
    node _quotient_T = asSInt(io.a)
    node _quotient_T_1 = asSInt(io.b)
    node _quotient_T_2 = div(_quotient_T, _quotient_T_1)
    node _quotient_T_3 = asUInt(_quotient_T_2)
    node quotient = bits(_quotient_T_3, 31, 0)
    node _rest_T = asSInt(io.a)
    node _rest_T_1 = asSInt(io.b)
    node _rest_T_2 = rem(_rest_T, _rest_T_1)
    node _rest_T_3 = asUInt(_rest_T_2)
    node rest = bits(_rest_T_3, 31, 0)
    node divided = mux(zero, UInt<32>(0hffffffff), quotient)
    node _dividedU_T = div(io.a, io.b)
    node dividedU = mux(zero, UInt<32>(0hffffffff), _dividedU_T)
    node left = mux(zero, io.a, rest)
    node _leftU_T = rem(io.a, io.b)
    node leftU = mux(zero, io.a, _leftU_T)
    node _io_out_T = eq(io.funct3, UInt<3>(0h1))
    node _io_out_T_1 = bits(signed, 63, 32)
    node _io_out_T_2 = eq(io.funct3, UInt<3>(0h2))
    node _io_out_T_3 = bits(mixed, 63, 32)
    node _io_out_T_4 = eq(io.funct3, UInt<3>(0h3))
    node _io_out_T_5 = bits(unsigned, 63, 32)
    node _io_out_T_6 = eq(io.funct3, UInt<3>(0h4))
    node _io_out_T_7 = eq(io.funct3, UInt<3>(0h5))
    node _io_out_T_8 = eq(io.funct3, UInt<3>(0h6))
    node _io_out_T_9 = eq(io.funct3, UInt<3>(0h7))
    node _io_out_T_10 = bits(unsigned, 31, 0)
    node _io_out_T_11 = mux(_io_out_T_9, leftU, _io_out_T_10)
    node _io_out_T_12 = mux(_io_out_T_8, left, _io_out_T_11)
    node _io_out_T_13 = mux(_io_out_T_7, dividedU, _io_out_T_12)
    node _io_out_T_14 = mux(_io_out_T_6, divided, _io_out_T_13)
    node _io_out_T_15 = mux(_io_out_T_4, _io_out_T_5, _io_out_T_14)
    node _io_out_T_16 = mux(_io_out_T_2, _io_out_T_3, _io_out_T_15)
    node _io_out_T_17 = mux(_io_out_T, _io_out_T_1, _io_out_T_16)
    connect io.out, _io_out_T_17

  module Branch :
    input clock : Clock
    input reset : UInt<1>
    output io : { flip funct3 : UInt<3>, flip a : UInt<32>, flip b : UInt<32>, taken : UInt<1>}
    wire holds : UInt<1>
    node kind = bits(io.funct3, 2, 1)
    node _when_T = eq(kind, UInt<2>(0h0))
    when _when_T :
      node _holds_T = eq(io.a, io.b)
      connect holds, _holds_T
    else :
      node _when_T_1 = eq(kind, UInt<2>(0h2))
      when _when_T_1 :
        node _holds_T_1 = asSInt(io.a)
        node _holds_T_2 = asSInt(io.b)
        node _holds_T_3 = lt(_holds_T_1, _holds_T_2)
        connect holds, _holds_T_3
      else :
        node _holds_T_4 = lt(io.a, io.b)
        connect holds, _holds_T_4
    node _io_taken_T = bits(io.funct3, 0, 0)
    node _io_taken_T_1 = xor(holds, _io_taken_T)
    connect io.taken, _io_taken_T_1

  module Registers :
    input clock : Clock
    input reset : UInt<1>
    output io : { flip rs1 : UInt<5>, flip rs2 : UInt<5>, a : UInt<32>, b : UInt<32>, flip write : { enable : UInt<1>, rd : UInt<5>, value : UInt<32>}}
    mem x :
      data-type => UInt<32>
      depth => 32
      read-latency => 0
      write-latency => 1
      reader => first
      reader => second
      writer => result
      read-under-write => undefined
    connect x.first.clk, clock
    node _x_first_en_T = neq(io.rs1, UInt<5>(0h0))
    connect x.first.en, _x_first_en_T
    connect x.first.addr, io.rs1
    connect io.a, x.first.data
    connect x.second.clk, clock
    node _x_second_en_T = neq(io.rs2, UInt<5>(0h0))
    connect x.second.en, _x_second_en_T
    connect x.second.addr, io.rs2
    connect io.b, x.second.data
    connect x.result.clk, clock
    node _x_result_en_T = neq(io.write.rd, UInt<5>(0h0))
    node _x_result_en_T_1 = and(io.write.enable, _x_result_en_T)
    connect x.result.en, _x_result_en_T_1
    connect x.result.addr, io.write.rd
    connect x.result.data, io.write.value
    connect x.result.mask, UInt<1>(0h1)

  module Ram :
    input clock : Clock
    input reset : UInt<1>
    output io : { flip fetch : { enable : UInt<1>, address : UInt<14>, flip data : UInt<32>}, flip load : { enable : UInt<1>, address : UInt<14>, flip data : UInt<32>}, flip store : { flip ready : UInt<1>, valid : UInt<1>, bits : { address : UInt<14>, data : UInt<8>[4], mask : UInt<1>[4]}}}
    mem bytes :
      data-type => UInt<8>[4]
      depth => 16384
      read-latency => 1
      write-latency => 1
      reader => fetch
      reader => load
      writer => store
      read-under-write => old
    connect bytes.fetch.clk, clock
    connect bytes.fetch.en, io.fetch.enable
    connect bytes.fetch.addr, io.fetch.address
    node _io_fetch_data_T = cat(bytes.fetch.data[1], bytes.fetch.data[0])
    node _io_fetch_data_T_1 = cat(bytes.fetch.data[2], _io_fetch_data_T)
    node _io_fetch_data_T_2 = cat(bytes.fetch.data[3], _io_fetch_data_T_1)
    connect io.fetch.data, _io_fetch_data_T_2
    connect bytes.load.clk, clock
    connect bytes.load.en, io.load.enable
    connect bytes.load.addr, io.load.address
    node _io_load_data_T = cat(bytes.load.data[1], bytes.load.data[0])
    node _io_load_data_T_1 = cat(bytes.load.data[2], _io_load_data_T)
    node _io_load_data_T_2 = cat(bytes.load.data[3], _io_load_data_T_1)
    connect io.load.data, _io_load_data_T_2
    connect io.store.ready, UInt<1>(0h1)
    connect bytes.store.clk, clock
    connect bytes.store.en, io.store.valid
    connect bytes.store.addr, io.store.bits.address
    connect bytes.store.data, io.store.bits.data
    connect bytes.store.mask, io.store.bits.mask

  module Arbiter :
    input clock : Clock
    input reset : UInt<1>
    output io : { flip in : { flip ready : UInt<1>, valid : UInt<1>, bits : { address : UInt<14>, data : UInt<8>[4], mask : UInt<1>[4]}}[2], out : { flip ready : UInt<1>, valid : UInt<1>, bits : { address : UInt<14>, data : UInt<8>[4], mask : UInt<1>[4]}}}
    node _io_out_valid_T = or(io.in[0].valid, io.in[1].valid)
    connect io.out.valid, _io_out_valid_T
    connect io.out.bits, io.in[1].bits
    when io.in[0].valid :
      connect io.out.bits, io.in[0].bits
    connect io.in[0].ready, io.out.ready
    node _io_in_1_ready_T = eq(io.in[0].valid, UInt<1>(0h0))
    node _io_in_1_ready_T_1 = and(io.out.ready, _io_in_1_ready_T)
    connect io.in[1].ready, _io_in_1_ready_T_1

  module Stored :
    input clock : Clock
    input reset : UInt<1>
    output io : { flip funct3 : UInt<3>, flip offset : UInt<2>, flip data : UInt<32>, bytes : UInt<8>[4], mask : UInt<1>[4]}
    node _io_bytes_0_T = bits(io.data, 7, 0)
    connect io.bytes[0], _io_bytes_0_T
    node _io_bytes_1_T = bits(io.data, 15, 8)
    connect io.bytes[1], _io_bytes_1_T
    node _io_bytes_2_T = bits(io.data, 23, 16)
    connect io.bytes[2], _io_bytes_2_T
    node _io_bytes_3_T = bits(io.data, 31, 24)
    connect io.bytes[3], _io_bytes_3_T
    connect io.mask[0], UInt<1>(0h1)
    connect io.mask[1], UInt<1>(0h1)
    connect io.mask[2], UInt<1>(0h1)
    connect io.mask[3], UInt<1>(0h1)
    node size = bits(io.funct3, 1, 0)
    node _when_T = eq(size, UInt<2>(0h0))
    when _when_T :
      node _io_bytes_1_T_1 = bits(io.data, 7, 0)
      connect io.bytes[1], _io_bytes_1_T_1
      node _io_bytes_2_T_1 = bits(io.data, 7, 0)
      connect io.bytes[2], _io_bytes_2_T_1
      node _io_bytes_3_T_1 = bits(io.data, 7, 0)
      connect io.bytes[3], _io_bytes_3_T_1
      node _io_mask_0_T = eq(io.offset, UInt<2>(0h0))
      connect io.mask[0], _io_mask_0_T
      node _io_mask_1_T = eq(io.offset, UInt<2>(0h1))
      connect io.mask[1], _io_mask_1_T
      node _io_mask_2_T = eq(io.offset, UInt<2>(0h2))
      connect io.mask[2], _io_mask_2_T
      node _io_mask_3_T = eq(io.offset, UInt<2>(0h3))
      connect io.mask[3], _io_mask_3_T
    else :
      node _when_T_1 = eq(size, UInt<2>(0h1))
      when _when_T_1 :
        node _io_bytes_2_T_2 = bits(io.data, 7, 0)
        connect io.bytes[2], _io_bytes_2_T_2
        node _io_bytes_3_T_2 = bits(io.data, 15, 8)
        connect io.bytes[3], _io_bytes_3_T_2
        node upper = bits(io.offset, 1, 1)
        node _io_mask_0_T_1 = not(upper)
        connect io.mask[0], _io_mask_0_T_1
        node _io_mask_1_T_1 = not(upper)
        connect io.mask[1], _io_mask_1_T_1
        connect io.mask[2], upper
        connect io.mask[3], upper

  module Loaded :
    input clock : Clock
    input reset : UInt<1>
    output io : { flip funct3 : UInt<3>, flip offset : UInt<2>, flip word : UInt<32>, value : UInt<32>}
    node _half_T = bits(io.offset, 1, 1)
    node _half_T_1 = bits(io.word, 31, 16)
    node _half_T_2 = bits(io.word, 15, 0)
    node half = mux(_half_T, _half_T_1, _half_T_2)
    node _byte_T = bits(io.offset, 0, 0)
    node _byte_T_1 = bits(half, 15, 8)
    node _byte_T_2 = bits(half, 7, 0)
    node byte = mux(_byte_T, _byte_T_1, _byte_T_2)
    node unsigned = bits(io.funct3, 2, 2)
    node size = bits(io.funct3, 1, 0)
    node _when_T = eq(size, UInt<2>(0h0))
    when _when_T :
      node _io_value_T = pad(byte, 32)
      node _io_value_T_1 = asSInt(byte)
      node _io_value_T_2 = pad(_io_value_T_1, 32)
      node _io_value_T_3 = asUInt(_io_value_T_2)
      node _io_value_T_4 = mux(unsigned, _io_value_T, _io_value_T_3)
      connect io.value, _io_value_T_4
    else :
      node _when_T_1 = eq(size, UInt<2>(0h1))
      when _when_T_1 :
        node _io_value_T_5 = pad(half, 32)
        node _io_value_T_6 = asSInt(half)
        node _io_value_T_7 = pad(_io_value_T_6, 32)
        node _io_value_T_8 = asUInt(_io_value_T_7)
        node _io_value_T_9 = mux(unsigned, _io_value_T_5, _io_value_T_8)
        connect io.value, _io_value_T_9
      else :
        connect io.value, io.word

  module Address :
    input clock : Clock
    input reset : UInt<1>
    output io : { flip funct3 : UInt<3>, flip address : UInt<32>, misaligned : UInt<1>, memory : UInt<1>, console : UInt<1>}
    node size = bits(io.funct3, 1, 0)
    node _half_T = eq(size, UInt<2>(0h1))
    node _half_T_1 = bits(io.address, 0, 0)
    node half = and(_half_T, _half_T_1)
    node _word_T = eq(size, UInt<2>(0h2))
    node _word_T_1 = bits(io.address, 1, 0)
    node _word_T_2 = orr(_word_T_1)
    node word = and(_word_T, _word_T_2)
    node _io_misaligned_T = or(half, word)
    connect io.misaligned, _io_misaligned_T
    node _io_memory_T = bits(io.address, 31, 16)
    node _io_memory_T_1 = eq(_io_memory_T, UInt<16>(0h0))
    connect io.memory, _io_memory_T_1
    node _io_console_T = eq(io.address, UInt<32>(0h10000000))
    connect io.console, _io_console_T

  module Forward :
    input clock : Clock
    input reset : UInt<1>
    output io : { flip rs : UInt<5>, flip read : UInt<32>, flip near : { rd : UInt<5>, value : UInt<32>}, flip far : { rd : UInt<5>, value : UInt<32>}, value : UInt<32>}
    connect io.value, io.read
    node _when_T = eq(io.rs, UInt<5>(0h0))
    when _when_T :
      connect io.value, UInt<32>(0h0)
    else :
      node _when_T_1 = eq(io.rs, io.near.rd)
      when _when_T_1 :
        connect io.value, io.near.value
      else :
        node _when_T_2 = eq(io.rs, io.far.rd)
        when _when_T_2 :
          connect io.value, io.far.value

  module Core :
    input clock : Clock
    input reset : UInt<1>
    output io : { fetch : { enable : UInt<1>, address : UInt<14>, flip data : UInt<32>}, load : { enable : UInt<1>, address : UInt<14>, flip data : UInt<32>}, store : { flip ready : UInt<1>, valid : UInt<1>, bits : { address : UInt<14>, data : UInt<8>[4], mask : UInt<1>[4]}}, console : { valid : UInt<1>, bits : UInt<8>}, exit : { valid : UInt<1>, bits : { code : UInt<3>, value : UInt<32>, pc : UInt<32>}}, retire : { valid : UInt<1>, bits : { pc : UInt<32>, inst : UInt<32>, rd : UInt<5>, value : UInt<32>}}}
    regreset pc : UInt<32>, clock, reset, UInt<32>(0h0)
    regreset stopped : UInt<1>, clock, reset, UInt<1>(0h0)
    regreset dValid : UInt<1>, clock, reset, UInt<1>(0h0)
    reg d : { pc : UInt<32>}, clock
    regreset xValid : UInt<1>, clock, reset, UInt<1>(0h0)
    reg x : { pc : UInt<32>, inst : UInt<32>, control : { legal : UInt<1>, rs1 : UInt<5>, rs2 : UInt<5>, rd : UInt<5>, writes : UInt<1>, immediate : UInt<32>, source : UInt<2>, constant : UInt<1>, operation : UInt<4>, funct3 : UInt<3>, muldiv : UInt<1>, branch : UInt<1>, jump : UInt<1>, indirect : UInt<1>, load : UInt<1>, store : UInt<1>, ecall : UInt<1>, ebreak : UInt<1>}, a : UInt<32>, b : UInt<32>, trap : UInt<1>, code : UInt<3>}, clock
    regreset mValid : UInt<1>, clock, reset, UInt<1>(0h0)
    reg m : { pc : UInt<32>, inst : UInt<32>, rd : UInt<5>, value : UInt<32>, load : UInt<1>, funct3 : UInt<3>, trap : UInt<1>, code : UInt<3>}, clock
    regreset wValid : UInt<1>, clock, reset, UInt<1>(0h0)
    reg w : { pc : UInt<32>, inst : UInt<32>, rd : UInt<5>, value : UInt<32>, trap : UInt<1>, code : UInt<3>}, clock
    inst decoder of Decoder
    connect decoder.clock, clock
    connect decoder.reset, reset
    inst registers of Registers
    connect registers.clock, clock
    connect registers.reset, reset
    inst alu of Alu
    connect alu.clock, clock
    connect alu.reset, reset
    inst muldiv of MulDiv
    connect muldiv.clock, clock
    connect muldiv.reset, reset
    inst branch of Branch
    connect branch.clock, clock
    connect branch.reset, reset
    inst place of Address
    connect place.clock, clock
    connect place.reset, reset
    inst stored of Stored
    connect stored.clock, clock
    connect stored.reset, reset
    inst loaded of Loaded
    connect loaded.clock, clock
    connect loaded.reset, reset
    inst first of Forward
    connect first.clock, clock
    connect first.reset, reset
    inst second of Forward
    connect second.clock, clock
    connect second.reset, reset
    node running = not(reset)
    node _wRd_T = not(w.trap)
    node _wRd_T_1 = and(wValid, _wRd_T)
    node wRd = mux(_wRd_T_1, w.rd, UInt<5>(0h0))
    node _mRd_T = not(m.trap)
    node _mRd_T_1 = and(mValid, _mRd_T)
    node mRd = mux(_mRd_T_1, m.rd, UInt<5>(0h0))
    wire redirect : UInt<1>
    wire target : UInt<32>
    wire stall : UInt<1>
    wire ending : UInt<1>
    node _address_T = mux(stall, d.pc, pc)
    node address = mux(redirect, target, _address_T)
    node _fetching_T = or(stopped, ending)
    node _fetching_T_1 = not(_fetching_T)
    node fetching = and(running, _fetching_T_1)
    node _io_fetch_enable_T = bits(address, 31, 16)
    node _io_fetch_enable_T_1 = orr(_io_fetch_enable_T)
    node _io_fetch_enable_T_2 = not(_io_fetch_enable_T_1)
    node _io_fetch_enable_T_3 = and(fetching, _io_fetch_enable_T_2)
    connect io.fetch.enable, _io_fetch_enable_T_3
    node _io_fetch_address_T = bits(address, 15, 2)
    connect io.fetch.address, _io_fetch_address_T
    connect dValid, fetching
    when fetching :
      connect d.pc, address
      node _pc_T = add(address, UInt<32>(0h4))
      node _pc_T_1 = tail(_pc_T, 1)
      connect pc, _pc_T_1
    wire inst : UInt<32>
    connect inst, io.fetch.data
    node _astray_T = bits(d.pc, 31, 16)
    node astray = orr(_astray_T)
    connect decoder.io.inst, inst
    wire control : { legal : UInt<1>, rs1 : UInt<5>, rs2 : UInt<5>, rd : UInt<5>, writes : UInt<1>, immediate : UInt<32>, source : UInt<2>, constant : UInt<1>, operation : UInt<4>, funct3 : UInt<3>, muldiv : UInt<1>, branch : UInt<1>, jump : UInt<1>, indirect : UInt<1>, load : UInt<1>, store : UInt<1>, ecall : UInt<1>, ebreak : UInt<1>}
    connect control, decoder.io.control
    connect registers.io.rs1, control.rs1
    connect registers.io.rs2, control.rs2
    node _waits_T = and(xValid, x.control.load)
    node _waits_T_1 = neq(x.control.rd, UInt<5>(0h0))
    node waits = and(_waits_T, _waits_T_1)
    node _needed_T = eq(x.control.rd, control.rs1)
    node _needed_T_1 = eq(x.control.rd, control.rs2)
    node needed = or(_needed_T, _needed_T_1)
    node _stall_T = not(astray)
    node _stall_T_1 = and(dValid, _stall_T)
    node _stall_T_2 = and(waits, needed)
    node _stall_T_3 = and(_stall_T_1, _stall_T_2)
    connect stall, _stall_T_3
    node _xValid_T = and(dValid, running)
    node _xValid_T_1 = or(redirect, stall)
    node _xValid_T_2 = or(_xValid_T_1, ending)
    node _xValid_T_3 = not(_xValid_T_2)
    node _xValid_T_4 = and(_xValid_T, _xValid_T_3)
    connect xValid, _xValid_T_4
    connect x.pc, d.pc
    connect x.inst, inst
    connect x.control, control
    node _x_a_T = neq(wRd, UInt<5>(0h0))
    node _x_a_T_1 = eq(wRd, control.rs1)
    node _x_a_T_2 = and(_x_a_T, _x_a_T_1)
    node _x_a_T_3 = mux(_x_a_T_2, w.value, registers.io.a)
    connect x.a, _x_a_T_3
    node _x_b_T = neq(wRd, UInt<5>(0h0))
    node _x_b_T_1 = eq(wRd, control.rs2)
    node _x_b_T_2 = and(_x_b_T, _x_b_T_1)
    node _x_b_T_3 = mux(_x_b_T_2, w.value, registers.io.b)
    connect x.b, _x_b_T_3
    connect x.trap, UInt<1>(0h1)
    when astray :
      connect x.code, UInt<3>(0h4)
    else :
      node _when_T = not(control.legal)
      when _when_T :
        connect x.code, UInt<3>(0h2)
      else when control.ecall :
        connect x.code, UInt<3>(0h0)
      else when control.ebreak :
        connect x.code, UInt<3>(0h5)
      else :
        connect x.trap, UInt<1>(0h0)
        connect x.code, UInt<3>(0h0)
    connect first.io.rs, x.control.rs1
    connect first.io.read, x.a
    connect first.io.near.rd, mRd
    connect first.io.near.value, m.value
    connect first.io.far.rd, wRd
    connect first.io.far.value, w.value
    connect second.io.rs, x.control.rs2
    connect second.io.read, x.b
    connect second.io.near.rd, mRd
    connect second.io.near.value, m.value
    connect second.io.far.rd, wRd
    connect second.io.far.value, w.value
    node a = first.io.value
    node b = second.io.value
    connect alu.io.operation, x.control.operation
    node _alu_io_a_T = eq(x.control.source, UInt<2>(0h1))
    node _alu_io_a_T_1 = eq(x.control.source, UInt<2>(0h2))
    node _alu_io_a_T_2 = mux(_alu_io_a_T_1, UInt<32>(0h0), a)
    node _alu_io_a_T_3 = mux(_alu_io_a_T, x.pc, _alu_io_a_T_2)
    connect alu.io.a, _alu_io_a_T_3
    node _alu_io_b_T = mux(x.control.constant, x.control.immediate, b)
    connect alu.io.b, _alu_io_b_T
    connect muldiv.io.funct3, x.control.funct3
    connect muldiv.io.a, a
    connect muldiv.io.b, b
    connect branch.io.funct3, x.control.funct3
    connect branch.io.a, a
    connect branch.io.b, b
    node base = mux(x.control.indirect, a, x.pc)
    node _target_T = add(base, x.control.immediate)
    node _target_T_1 = tail(_target_T, 1)
    node _target_T_2 = bits(_target_T_1, 31, 1)
    node _target_T_3 = cat(_target_T_2, UInt<1>(0h0))
    connect target, _target_T_3
    node _taken_T = and(x.control.branch, branch.io.taken)
    node taken = or(x.control.jump, _taken_T)
    connect place.io.funct3, x.control.funct3
    connect place.io.address, alu.io.out
    node access = or(x.control.load, x.control.store)
    node _outside_T = and(x.control.store, place.io.console)
    node _outside_T_1 = or(place.io.memory, _outside_T)
    node outside = not(_outside_T_1)
    node astride = bits(target, 1, 1)
    wire trap : { valid : UInt<1>, bits : UInt<3>}
    connect trap.valid, x.trap
    connect trap.bits, x.code
    node _when_T_1 = not(x.trap)
    when _when_T_1 :
      node _when_T_2 = and(taken, astride)
      node _when_T_3 = and(access, place.io.misaligned)
      node _when_T_4 = or(_when_T_2, _when_T_3)
      when _when_T_4 :
        connect trap.valid, UInt<1>(0h1)
        connect trap.bits, UInt<3>(0h3)
      else :
        node _when_T_5 = and(access, outside)
        when _when_T_5 :
          connect trap.valid, UInt<1>(0h1)
          connect trap.bits, UInt<3>(0h4)
    node _execute_T = and(xValid, running)
    node _execute_T_1 = not(trap.valid)
    node execute = and(_execute_T, _execute_T_1)
    node _redirect_T = and(execute, taken)
    connect redirect, _redirect_T
    node _ending_T = and(xValid, trap.valid)
    connect ending, _ending_T
    when ending :
      connect stopped, UInt<1>(0h1)
    node _io_load_enable_T = and(execute, x.control.load)
    connect io.load.enable, _io_load_enable_T
    node _io_load_address_T = bits(alu.io.out, 15, 2)
    connect io.load.address, _io_load_address_T
    connect stored.io.funct3, x.control.funct3
    node _stored_io_offset_T = bits(alu.io.out, 1, 0)
    connect stored.io.offset, _stored_io_offset_T
    connect stored.io.data, b
    node _io_store_valid_T = and(execute, x.control.store)
    node _io_store_valid_T_1 = and(_io_store_valid_T, place.io.memory)
    connect io.store.valid, _io_store_valid_T_1
    node _io_store_bits_address_T = bits(alu.io.out, 15, 2)
    connect io.store.bits.address, _io_store_bits_address_T
    connect io.store.bits.data, stored.io.bytes
    connect io.store.bits.mask, stored.io.mask
    node _told_T = and(execute, x.control.store)
    node told = and(_told_T, place.io.console)
    connect io.console.valid, told
    node _io_console_bits_T = bits(b, 7, 0)
    node _io_console_bits_T_1 = mux(told, _io_console_bits_T, UInt<8>(0h0))
    connect io.console.bits, _io_console_bits_T_1
    node _mValid_T = and(xValid, running)
    connect mValid, _mValid_T
    connect m.pc, x.pc
    connect m.inst, x.inst
    connect m.rd, x.control.rd
    connect m.load, x.control.load
    connect m.funct3, x.control.funct3
    connect m.trap, trap.valid
    connect m.code, trap.bits
    connect m.value, alu.io.out
    when x.control.ecall :
      connect m.value, a
    else when x.control.jump :
      node _m_value_T = add(x.pc, UInt<32>(0h4))
      node _m_value_T_1 = tail(_m_value_T, 1)
      connect m.value, _m_value_T_1
    else when x.control.muldiv :
      connect m.value, muldiv.io.out
    connect loaded.io.funct3, m.funct3
    node _loaded_io_offset_T = bits(m.value, 1, 0)
    connect loaded.io.offset, _loaded_io_offset_T
    connect loaded.io.word, io.load.data
    node _wValid_T = and(mValid, running)
    connect wValid, _wValid_T
    connect w.pc, m.pc
    connect w.inst, m.inst
    connect w.rd, m.rd
    node _w_value_T = mux(m.load, loaded.io.value, m.value)
    connect w.value, _w_value_T
    connect w.trap, m.trap
    connect w.code, m.code
    node _done_T = and(wValid, running)
    node _done_T_1 = not(w.trap)
    node done = and(_done_T, _done_T_1)
    connect registers.io.write.enable, done
    connect registers.io.write.rd, wRd
    connect registers.io.write.value, w.value
    node _ends_T = and(wValid, running)
    node ends = and(_ends_T, w.trap)
    connect io.exit.valid, ends
    connect io.exit.bits.code, UInt<3>(0h0)
    connect io.exit.bits.value, UInt<32>(0h0)
    connect io.exit.bits.pc, UInt<32>(0h0)
    when ends :
      connect io.exit.bits.code, w.code
      node _io_exit_bits_value_T = eq(w.code, UInt<3>(0h0))
      node _io_exit_bits_value_T_1 = mux(_io_exit_bits_value_T, w.value, w.inst)
      connect io.exit.bits.value, _io_exit_bits_value_T_1
      connect io.exit.bits.pc, w.pc
    connect io.retire.valid, done
    connect io.retire.bits.pc, w.pc
    connect io.retire.bits.inst, w.inst
    connect io.retire.bits.rd, w.rd
    node _io_retire_bits_value_T = neq(w.rd, UInt<5>(0h0))
    node _io_retire_bits_value_T_1 = mux(_io_retire_bits_value_T, w.value, UInt<32>(0h0))
    connect io.retire.bits.value, _io_retire_bits_value_T_1

  module Rv32Pipe :
    input clock : Clock
    input reset : UInt<1>
    output io : { flip load : { flip ready : UInt<1>, valid : UInt<1>, bits : { address : UInt<14>, data : UInt<32>}}, console : { valid : UInt<1>, bits : UInt<8>}, exit : { valid : UInt<1>, bits : { code : UInt<3>, value : UInt<32>, pc : UInt<32>}}}
    inst core of Core
    connect core.clock, clock
    connect core.reset, reset
    inst ram of Ram
    connect ram.clock, clock
    connect ram.reset, reset
    inst arbiter of Arbiter
    connect arbiter.clock, clock
    connect arbiter.reset, reset
    connect ram.io.fetch, core.io.fetch
    connect ram.io.load, core.io.load
    connect arbiter.io.in[0].valid, io.load.valid
    connect arbiter.io.in[0].bits.address, io.load.bits.address
    node _arbiter_io_in_0_bits_data_0_T = bits(io.load.bits.data, 7, 0)
    connect arbiter.io.in[0].bits.data[0], _arbiter_io_in_0_bits_data_0_T
    node _arbiter_io_in_0_bits_data_1_T = bits(io.load.bits.data, 15, 8)
    connect arbiter.io.in[0].bits.data[1], _arbiter_io_in_0_bits_data_1_T
    node _arbiter_io_in_0_bits_data_2_T = bits(io.load.bits.data, 23, 16)
    connect arbiter.io.in[0].bits.data[2], _arbiter_io_in_0_bits_data_2_T
    node _arbiter_io_in_0_bits_data_3_T = bits(io.load.bits.data, 31, 24)
    connect arbiter.io.in[0].bits.data[3], _arbiter_io_in_0_bits_data_3_T
    connect arbiter.io.in[0].bits.mask[0], UInt<1>(0h1)
    connect arbiter.io.in[0].bits.mask[1], UInt<1>(0h1)
    connect arbiter.io.in[0].bits.mask[2], UInt<1>(0h1)
    connect arbiter.io.in[0].bits.mask[3], UInt<1>(0h1)
    connect io.load.ready, arbiter.io.in[0].ready
    connect arbiter.io.in[1], core.io.store
    connect ram.io.store, arbiter.io.out
    connect io.console, core.io.console
    connect io.exit, core.io.exit
    when core.io.console.valid :
      printf(clock, UInt<1>(0h1), "%c", core.io.console.bits) : console
    when core.io.exit.valid :
      node _when_T = eq(core.io.exit.bits.code, UInt<3>(0h0))
      when _when_T :
        node _when_T_1 = eq(core.io.exit.bits.value, UInt<32>(0h0))
        when _when_T_1 :
          stop(clock, UInt<1>(0h1), 0) : passed
        else :
          printf(clock, UInt<1>(0h1), "exit %d\n", core.io.exit.bits.value) : failure
          stop(clock, UInt<1>(0h1), 1) : failed
      else :
        node _when_T_2 = eq(core.io.exit.bits.code, UInt<3>(0h2))
        when _when_T_2 :
          printf(clock, UInt<1>(0h1), "illegal instruction %x at %x\n", core.io.exit.bits.value, core.io.exit.bits.pc) : told_2
          stop(clock, UInt<1>(0h1), 2) : stop_2
        else :
          node _when_T_3 = eq(core.io.exit.bits.code, UInt<3>(0h3))
          when _when_T_3 :
            printf(clock, UInt<1>(0h1), "misaligned address of %x at %x\n", core.io.exit.bits.value, core.io.exit.bits.pc) : told_3
            stop(clock, UInt<1>(0h1), 3) : stop_3
          else :
            node _when_T_4 = eq(core.io.exit.bits.code, UInt<3>(0h4))
            when _when_T_4 :
              printf(clock, UInt<1>(0h1), "no memory for %x at %x\n", core.io.exit.bits.value, core.io.exit.bits.pc) : told_4
              stop(clock, UInt<1>(0h1), 4) : stop_4
            else :
              node _when_T_5 = eq(core.io.exit.bits.code, UInt<3>(0h5))
              when _when_T_5 :
                printf(clock, UInt<1>(0h1), "breakpoint %x at %x\n", core.io.exit.bits.value, core.io.exit.bits.pc) : told_5
                stop(clock, UInt<1>(0h1), 5) : stop_5
