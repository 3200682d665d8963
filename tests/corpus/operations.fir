; Each operation on operands at the edges of their ranges: selK says which one is shown by sK or uK, by the kind of its result.
; The results were computed with integers of any size.
FIRRTL version 3.0.0
circuit Operations :
  module Operations :
    input sel0 : UInt<10>
    input sel1 : UInt<10>
    input sel2 : UInt<10>
    input sel3 : UInt<10>
    input as0 : SInt<0>
    input as1 : SInt<1>
    input as2 : SInt<2>
    input as4 : SInt<4>
    input as63 : SInt<63>
    input as64 : SInt<64>
    input as65 : SInt<65>
    input as127 : SInt<127>
    input as128 : SInt<128>
    input au0 : UInt<0>
    input au1 : UInt<1>
    input au2 : UInt<2>
    input au4 : UInt<4>
    input au63 : UInt<63>
    input au64 : UInt<64>
    input au65 : UInt<65>
    input au127 : UInt<127>
    input au128 : UInt<128>
    input bs0 : SInt<0>
    input bs1 : SInt<1>
    input bs2 : SInt<2>
    input bs4 : SInt<4>
    input bs63 : SInt<63>
    input bs64 : SInt<64>
    input bs65 : SInt<65>
    input bs127 : SInt<127>
    input bs128 : SInt<128>
    input bu0 : UInt<0>
    input bu1 : UInt<1>
    input bu2 : UInt<2>
    input bu4 : UInt<4>
    input bu63 : UInt<63>
    input bu64 : UInt<64>
    input bu65 : UInt<65>
    input bu127 : UInt<127>
    input bu128 : UInt<128>
    output s0 : SInt<128>
    output u0 : UInt<128>
    output s1 : SInt<128>
    output u1 : UInt<128>
    output s2 : SInt<128>
    output u2 : UInt<128>
    output s3 : SInt<128>
    output u3 : UInt<128>
    connect s0, SInt<1>(0)
    connect u0, UInt<1>(0)
    connect s1, SInt<1>(0)
    connect u1, UInt<1>(0)
    connect s2, SInt<1>(0)
    connect u2, UInt<1>(0)
    connect s3, SInt<1>(0)
    connect u3, UInt<1>(0)
    node n0 = add(as0, bs63)
    when eq(sel0, UInt<10>(0)) :
      connect s0, n0
    node n1 = add(as0, bs64)
    when eq(sel1, UInt<10>(1)) :
      connect s1, n1
    node n2 = add(as127, bs0)
    when eq(sel2, UInt<10>(2)) :
      connect s2, n2
    node n3 = add(as1, bs63)
    when eq(sel3, UInt<10>(3)) :
      connect s3, n3
    node n4 = add(as1, bs65)
    when eq(sel0, UInt<10>(4)) :
      connect s0, n4
    node n5 = add(as2, bs64)
    when eq(sel1, UInt<10>(5)) :
      connect s1, n5
    node n6 = add(as2, bs127)
    when eq(sel2, UInt<10>(6)) :
      connect s2, n6
    node n7 = add(as63, bs64)
    when eq(sel3, UInt<10>(7)) :
      connect s3, n7
    node n8 = add(as63, bs127)
    when eq(sel0, UInt<10>(8)) :
      connect s0, n8
    node n9 = add(as64, bs64)
    when eq(sel1, UInt<10>(9)) :
      connect s1, n9
    node n10 = add(as65, bs127)
    when eq(sel2, UInt<10>(10)) :
      connect s2, n10
    node n11 = add(au0, bu127)
    when eq(sel3, UInt<10>(11)) :
      connect u3, n11
    node n12 = add(au127, bu2)
    when eq(sel0, UInt<10>(12)) :
      connect u0, n12
    node n13 = add(au1, bu127)
    when eq(sel1, UInt<10>(13)) :
      connect u1, n13
    node n14 = add(au2, bu127)
    when eq(sel2, UInt<10>(14)) :
      connect u2, n14
    node n15 = add(au63, bu127)
    when eq(sel3, UInt<10>(15)) :
      connect u3, n15
    node n16 = add(au64, bu2)
    when eq(sel0, UInt<10>(16)) :
      connect u0, n16
    node n17 = add(au65, bu64)
    when eq(sel1, UInt<10>(17)) :
      connect u1, n17
    node n18 = sub(as0, bs1)
    when eq(sel2, UInt<10>(18)) :
      connect s2, n18
    node n19 = sub(as0, bs64)
    when eq(sel3, UInt<10>(19)) :
      connect s3, n19
    node n20 = sub(as127, bs64)
    when eq(sel0, UInt<10>(20)) :
      connect s0, n20
    node n21 = sub(as127, bs2)
    when eq(sel1, UInt<10>(21)) :
      connect s1, n21
    node n22 = sub(as1, bs1)
    when eq(sel2, UInt<10>(22)) :
      connect s2, n22
    node n23 = sub(as1, bs65)
    when eq(sel3, UInt<10>(23)) :
      connect s3, n23
    node n24 = sub(as2, bs64)
    when eq(sel0, UInt<10>(24)) :
      connect s0, n24
    node n25 = sub(as2, bs2)
    when eq(sel1, UInt<10>(25)) :
      connect s1, n25
    node n26 = sub(as63, bs63)
    when eq(sel2, UInt<10>(26)) :
      connect s2, n26
    node n27 = sub(as63, bs65)
    when eq(sel3, UInt<10>(27)) :
      connect s3, n27
    node n28 = sub(as64, bs127)
    when eq(sel0, UInt<10>(28)) :
      connect s0, n28
    node n29 = sub(as64, bs0)
    when eq(sel1, UInt<10>(29)) :
      connect s1, n29
    node n30 = sub(as65, bs127)
    when eq(sel2, UInt<10>(30)) :
      connect s2, n30
    node n31 = sub(as65, bs1)
    when eq(sel3, UInt<10>(31)) :
      connect s3, n31
    node n32 = sub(au0, bu63)
    when eq(sel0, UInt<10>(32)) :
      connect u0, n32
    node n33 = sub(au127, bu64)
    when eq(sel1, UInt<10>(33)) :
      connect u1, n33
    node n34 = sub(au1, bu64)
    when eq(sel2, UInt<10>(34)) :
      connect u2, n34
    node n35 = sub(au2, bu127)
    when eq(sel3, UInt<10>(35)) :
      connect u3, n35
    node n36 = sub(au2, bu63)
    when eq(sel0, UInt<10>(36)) :
      connect u0, n36
    node n37 = sub(au63, bu64)
    when eq(sel1, UInt<10>(37)) :
      connect u1, n37
    node n38 = sub(au64, bu63)
    when eq(sel2, UInt<10>(38)) :
      connect u2, n38
    node n39 = sub(au65, bu65)
    when eq(sel3, UInt<10>(39)) :
      connect u3, n39
    node n40 = mul(as0, bs127)
    when eq(sel0, UInt<10>(40)) :
      connect s0, n40
    node n41 = mul(as0, bs65)
    when eq(sel1, UInt<10>(41)) :
      connect s1, n41
    node n42 = mul(as127, bs1)
    when eq(sel2, UInt<10>(42)) :
      connect s2, n42
    node n43 = mul(as128, bs0)
    when eq(sel3, UInt<10>(43)) :
      connect s3, n43
    node n44 = mul(as1, bs127)
    when eq(sel0, UInt<10>(44)) :
      connect s0, n44
    node n45 = mul(as1, bs63)
    when eq(sel1, UInt<10>(45)) :
      connect s1, n45
    node n46 = mul(as2, bs1)
    when eq(sel2, UInt<10>(46)) :
      connect s2, n46
    node n47 = mul(as63, bs2)
    when eq(sel3, UInt<10>(47)) :
      connect s3, n47
    node n48 = mul(as64, bs64)
    when eq(sel0, UInt<10>(48)) :
      connect s0, n48
    node n49 = mul(as65, bs2)
    when eq(sel1, UInt<10>(49)) :
      connect s1, n49
    node n50 = mul(au0, bu64)
    when eq(sel2, UInt<10>(50)) :
      connect u2, n50
    node n51 = mul(au127, bu1)
    when eq(sel3, UInt<10>(51)) :
      connect u3, n51
    node n52 = mul(au128, bu0)
    when eq(sel0, UInt<10>(52)) :
      connect u0, n52
    node n53 = mul(au1, bu1)
    when eq(sel1, UInt<10>(53)) :
      connect u1, n53
    node n54 = mul(au2, bu2)
    when eq(sel2, UInt<10>(54)) :
      connect u2, n54
    node n55 = mul(au63, bu1)
    when eq(sel3, UInt<10>(55)) :
      connect u3, n55
    node n56 = mul(au64, bu63)
    when eq(sel0, UInt<10>(56)) :
      connect u0, n56
    node n57 = mul(au65, bu0)
    when eq(sel1, UInt<10>(57)) :
      connect u1, n57
    node n58 = div(as0, bs127)
    when eq(sel2, UInt<10>(58)) :
      connect s2, n58
    node n59 = div(as0, bs65)
    when eq(sel3, UInt<10>(59)) :
      connect s3, n59
    node n60 = div(as127, bs2)
    when eq(sel0, UInt<10>(60)) :
      connect s0, n60
    node n61 = div(as127, bs65)
    when eq(sel1, UInt<10>(61)) :
      connect s1, n61
    node n62 = div(as1, bs128)
    when eq(sel2, UInt<10>(62)) :
      connect s2, n62
    node n63 = div(as1, bs65)
    when eq(sel3, UInt<10>(63)) :
      connect s3, n63
    node n64 = div(as2, bs63)
    when eq(sel0, UInt<10>(64)) :
      connect s0, n64
    node n65 = div(as2, bs128)
    when eq(sel1, UInt<10>(65)) :
      connect s1, n65
    node n66 = div(as63, bs65)
    when eq(sel2, UInt<10>(66)) :
      connect s2, n66
    node n67 = div(as63, bs1)
    when eq(sel3, UInt<10>(67)) :
      connect s3, n67
    node n68 = div(as64, bs2)
    when eq(sel0, UInt<10>(68)) :
      connect s0, n68
    node n69 = div(as64, bs128)
    when eq(sel1, UInt<10>(69)) :
      connect s1, n69
    node n70 = div(as65, bs64)
    when eq(sel2, UInt<10>(70)) :
      connect s2, n70
    node n71 = div(as65, bs65)
    when eq(sel3, UInt<10>(71)) :
      connect s3, n71
    node n72 = div(au0, bu0)
    when eq(sel0, UInt<10>(72)) :
      connect u0, n72
    node n73 = div(au0, bu64)
    when eq(sel1, UInt<10>(73)) :
      connect u1, n73
    node n74 = div(au127, bu63)
    when eq(sel2, UInt<10>(74)) :
      connect u2, n74
    node n75 = div(au128, bu127)
    when eq(sel3, UInt<10>(75)) :
      connect u3, n75
    node n76 = div(au1, bu128)
    when eq(sel0, UInt<10>(76)) :
      connect u0, n76
    node n77 = div(au1, bu64)
    when eq(sel1, UInt<10>(77)) :
      connect u1, n77
    node n78 = div(au2, bu2)
    when eq(sel2, UInt<10>(78)) :
      connect u2, n78
    node n79 = div(au63, bu127)
    when eq(sel3, UInt<10>(79)) :
      connect u3, n79
    node n80 = div(au64, bu63)
    when eq(sel0, UInt<10>(80)) :
      connect u0, n80
    node n81 = div(au65, bu65)
    when eq(sel1, UInt<10>(81)) :
      connect u1, n81
    node n82 = rem(as0, bs128)
    when eq(sel2, UInt<10>(82)) :
      connect s2, n82
    node n83 = rem(as0, bs63)
    when eq(sel3, UInt<10>(83)) :
      connect s3, n83
    node n84 = rem(as127, bs127)
    when eq(sel0, UInt<10>(84)) :
      connect s0, n84
    node n85 = rem(as127, bs63)
    when eq(sel1, UInt<10>(85)) :
      connect s1, n85
    node n86 = rem(as128, bs128)
    when eq(sel2, UInt<10>(86)) :
      connect s2, n86
    node n87 = rem(as128, bs2)
    when eq(sel3, UInt<10>(87)) :
      connect s3, n87
    node n88 = rem(as1, bs128)
    when eq(sel0, UInt<10>(88)) :
      connect s0, n88
    node n89 = rem(as1, bs63)
    when eq(sel1, UInt<10>(89)) :
      connect s1, n89
    node n90 = rem(as2, bs64)
    when eq(sel2, UInt<10>(90)) :
      connect s2, n90
    node n91 = rem(as2, bs65)
    when eq(sel3, UInt<10>(91)) :
      connect s3, n91
    node n92 = rem(as63, bs127)
    when eq(sel0, UInt<10>(92)) :
      connect s0, n92
    node n93 = rem(as63, bs2)
    when eq(sel1, UInt<10>(93)) :
      connect s1, n93
    node n94 = rem(as64, bs127)
    when eq(sel2, UInt<10>(94)) :
      connect s2, n94
    node n95 = rem(as64, bs65)
    when eq(sel3, UInt<10>(95)) :
      connect s3, n95
    node n96 = rem(as65, bs65)
    when eq(sel0, UInt<10>(96)) :
      connect s0, n96
    node n97 = rem(as65, bs1)
    when eq(sel1, UInt<10>(97)) :
      connect s1, n97
    node n98 = rem(au0, bu63)
    when eq(sel2, UInt<10>(98)) :
      connect u2, n98
    node n99 = rem(au127, bu127)
    when eq(sel3, UInt<10>(99)) :
      connect u3, n99
    node n100 = rem(au128, bu2)
    when eq(sel0, UInt<10>(100)) :
      connect u0, n100
    node n101 = rem(au1, bu64)
    when eq(sel1, UInt<10>(101)) :
      connect u1, n101
    node n102 = rem(au2, bu65)
    when eq(sel2, UInt<10>(102)) :
      connect u2, n102
    node n103 = rem(au63, bu2)
    when eq(sel3, UInt<10>(103)) :
      connect u3, n103
    node n104 = rem(au64, bu127)
    when eq(sel0, UInt<10>(104)) :
      connect u0, n104
    node n105 = rem(au65, bu128)
    when eq(sel1, UInt<10>(105)) :
      connect u1, n105
    node n106 = lt(as0, bs128)
    when eq(sel2, UInt<10>(106)) :
      connect u2, n106
    node n107 = lt(as127, bs64)
    when eq(sel3, UInt<10>(107)) :
      connect u3, n107
    node n108 = lt(as127, bs128)
    when eq(sel0, UInt<10>(108)) :
      connect u0, n108
    node n109 = lt(as128, bs128)
    when eq(sel1, UInt<10>(109)) :
      connect u1, n109
    node n110 = lt(as1, bs63)
    when eq(sel2, UInt<10>(110)) :
      connect u2, n110
    node n111 = lt(as1, bs128)
    when eq(sel3, UInt<10>(111)) :
      connect u3, n111
    node n112 = lt(as2, bs127)
    when eq(sel0, UInt<10>(112)) :
      connect u0, n112
    node n113 = lt(as2, bs65)
    when eq(sel1, UInt<10>(113)) :
      connect u1, n113
    node n114 = lt(as63, bs128)
    when eq(sel2, UInt<10>(114)) :
      connect u2, n114
    node n115 = lt(as63, bs1)
    when eq(sel3, UInt<10>(115)) :
      connect u3, n115
    node n116 = lt(as64, bs63)
    when eq(sel0, UInt<10>(116)) :
      connect u0, n116
    node n117 = lt(as64, bs65)
    when eq(sel1, UInt<10>(117)) :
      connect u1, n117
    node n118 = lt(as65, bs65)
    when eq(sel2, UInt<10>(118)) :
      connect u2, n118
    node n119 = lt(as65, bs128)
    when eq(sel3, UInt<10>(119)) :
      connect u3, n119
    node n120 = lt(au0, bu128)
    when eq(sel0, UInt<10>(120)) :
      connect u0, n120
    node n121 = lt(au127, bu63)
    when eq(sel1, UInt<10>(121)) :
      connect u1, n121
    node n122 = lt(au128, bu127)
    when eq(sel2, UInt<10>(122)) :
      connect u2, n122
    node n123 = lt(au1, bu127)
    when eq(sel3, UInt<10>(123)) :
      connect u3, n123
    node n124 = lt(au2, bu65)
    when eq(sel0, UInt<10>(124)) :
      connect u0, n124
    node n125 = lt(au63, bu63)
    when eq(sel1, UInt<10>(125)) :
      connect u1, n125
    node n126 = lt(au64, bu128)
    when eq(sel2, UInt<10>(126)) :
      connect u2, n126
    node n127 = lt(au65, bu63)
    when eq(sel3, UInt<10>(127)) :
      connect u3, n127
    node n128 = leq(as0, bs65)
    when eq(sel0, UInt<10>(128)) :
      connect u0, n128
    node n129 = leq(as127, bs64)
    when eq(sel1, UInt<10>(129)) :
      connect u1, n129
    node n130 = leq(as128, bs63)
    when eq(sel2, UInt<10>(130)) :
      connect u2, n130
    node n131 = leq(as1, bs127)
    when eq(sel3, UInt<10>(131)) :
      connect u3, n131
    node n132 = leq(as1, bs63)
    when eq(sel0, UInt<10>(132)) :
      connect u0, n132
    node n133 = leq(as2, bs64)
    when eq(sel1, UInt<10>(133)) :
      connect u1, n133
    node n134 = leq(as63, bs64)
    when eq(sel2, UInt<10>(134)) :
      connect u2, n134
    node n135 = leq(as64, bs64)
    when eq(sel3, UInt<10>(135)) :
      connect u3, n135
    node n136 = leq(as65, bs127)
    when eq(sel0, UInt<10>(136)) :
      connect u0, n136
    node n137 = leq(au0, bu65)
    when eq(sel1, UInt<10>(137)) :
      connect u1, n137
    node n138 = leq(au127, bu65)
    when eq(sel2, UInt<10>(138)) :
      connect u2, n138
    node n139 = leq(au128, bu128)
    when eq(sel3, UInt<10>(139)) :
      connect u3, n139
    node n140 = leq(au1, bu127)
    when eq(sel0, UInt<10>(140)) :
      connect u0, n140
    node n141 = leq(au2, bu1)
    when eq(sel1, UInt<10>(141)) :
      connect u1, n141
    node n142 = leq(au63, bu1)
    when eq(sel2, UInt<10>(142)) :
      connect u2, n142
    node n143 = leq(au64, bu2)
    when eq(sel3, UInt<10>(143)) :
      connect u3, n143
    node n144 = leq(au65, bu63)
    when eq(sel0, UInt<10>(144)) :
      connect u0, n144
    node n145 = gt(as0, bs127)
    when eq(sel1, UInt<10>(145)) :
      connect u1, n145
    node n146 = gt(as0, bs64)
    when eq(sel2, UInt<10>(146)) :
      connect u2, n146
    node n147 = gt(as127, bs0)
    when eq(sel3, UInt<10>(147)) :
      connect u3, n147
    node n148 = gt(as128, bs127)
    when eq(sel0, UInt<10>(148)) :
      connect u0, n148
    node n149 = gt(as1, bs2)
    when eq(sel1, UInt<10>(149)) :
      connect u1, n149
    node n150 = gt(as1, bs128)
    when eq(sel2, UInt<10>(150)) :
      connect u2, n150
    node n151 = gt(as2, bs63)
    when eq(sel3, UInt<10>(151)) :
      connect u3, n151
    node n152 = gt(as63, bs64)
    when eq(sel0, UInt<10>(152)) :
      connect u0, n152
    node n153 = gt(as64, bs128)
    when eq(sel1, UInt<10>(153)) :
      connect u1, n153
    node n154 = gt(as65, bs65)
    when eq(sel2, UInt<10>(154)) :
      connect u2, n154
    node n155 = gt(au0, bu63)
    when eq(sel3, UInt<10>(155)) :
      connect u3, n155
    node n156 = gt(au127, bu63)
    when eq(sel0, UInt<10>(156)) :
      connect u0, n156
    node n157 = gt(au128, bu64)
    when eq(sel1, UInt<10>(157)) :
      connect u1, n157
    node n158 = gt(au1, bu63)
    when eq(sel2, UInt<10>(158)) :
      connect u2, n158
    node n159 = gt(au2, bu1)
    when eq(sel3, UInt<10>(159)) :
      connect u3, n159
    node n160 = gt(au63, bu128)
    when eq(sel0, UInt<10>(160)) :
      connect u0, n160
    node n161 = gt(au64, bu128)
    when eq(sel1, UInt<10>(161)) :
      connect u1, n161
    node n162 = gt(au65, bu64)
    when eq(sel2, UInt<10>(162)) :
      connect u2, n162
    node n163 = geq(as0, bs128)
    when eq(sel3, UInt<10>(163)) :
      connect u3, n163
    node n164 = geq(as0, bs64)
    when eq(sel0, UInt<10>(164)) :
      connect u0, n164
    node n165 = geq(as127, bs127)
    when eq(sel1, UInt<10>(165)) :
      connect u1, n165
    node n166 = geq(as128, bs127)
    when eq(sel2, UInt<10>(166)) :
      connect u2, n166
    node n167 = geq(as1, bs128)
    when eq(sel3, UInt<10>(167)) :
      connect u3, n167
    node n168 = geq(as2, bs1)
    when eq(sel0, UInt<10>(168)) :
      connect u0, n168
    node n169 = geq(as63, bs65)
    when eq(sel1, UInt<10>(169)) :
      connect u1, n169
    node n170 = geq(as64, bs65)
    when eq(sel2, UInt<10>(170)) :
      connect u2, n170
    node n171 = geq(as65, bs63)
    when eq(sel3, UInt<10>(171)) :
      connect u3, n171
    node n172 = geq(au0, bu65)
    when eq(sel0, UInt<10>(172)) :
      connect u0, n172
    node n173 = geq(au127, bu1)
    when eq(sel1, UInt<10>(173)) :
      connect u1, n173
    node n174 = geq(au128, bu128)
    when eq(sel2, UInt<10>(174)) :
      connect u2, n174
    node n175 = geq(au1, bu1)
    when eq(sel3, UInt<10>(175)) :
      connect u3, n175
    node n176 = geq(au2, bu64)
    when eq(sel0, UInt<10>(176)) :
      connect u0, n176
    node n177 = geq(au63, bu63)
    when eq(sel1, UInt<10>(177)) :
      connect u1, n177
    node n178 = geq(au64, bu2)
    when eq(sel2, UInt<10>(178)) :
      connect u2, n178
    node n179 = geq(au65, bu64)
    when eq(sel3, UInt<10>(179)) :
      connect u3, n179
    node n180 = eq(as0, bs2)
    when eq(sel0, UInt<10>(180)) :
      connect u0, n180
    node n181 = eq(as0, bs65)
    when eq(sel1, UInt<10>(181)) :
      connect u1, n181
    node n182 = eq(as127, bs127)
    when eq(sel2, UInt<10>(182)) :
      connect u2, n182
    node n183 = eq(as128, bs65)
    when eq(sel3, UInt<10>(183)) :
      connect u3, n183
    node n184 = eq(as1, bs127)
    when eq(sel0, UInt<10>(184)) :
      connect u0, n184
    node n185 = eq(as1, bs63)
    when eq(sel1, UInt<10>(185)) :
      connect u1, n185
    node n186 = eq(as2, bs64)
    when eq(sel2, UInt<10>(186)) :
      connect u2, n186
    node n187 = eq(as63, bs128)
    when eq(sel3, UInt<10>(187)) :
      connect u3, n187
    node n188 = eq(as64, bs64)
    when eq(sel0, UInt<10>(188)) :
      connect u0, n188
    node n189 = eq(as65, bs63)
    when eq(sel1, UInt<10>(189)) :
      connect u1, n189
    node n190 = eq(au0, bu64)
    when eq(sel2, UInt<10>(190)) :
      connect u2, n190
    node n191 = eq(au127, bu64)
    when eq(sel3, UInt<10>(191)) :
      connect u3, n191
    node n192 = eq(au128, bu2)
    when eq(sel0, UInt<10>(192)) :
      connect u0, n192
    node n193 = eq(au1, bu128)
    when eq(sel1, UInt<10>(193)) :
      connect u1, n193
    node n194 = eq(au2, bu1)
    when eq(sel2, UInt<10>(194)) :
      connect u2, n194
    node n195 = eq(au63, bu65)
    when eq(sel3, UInt<10>(195)) :
      connect u3, n195
    node n196 = eq(au64, bu64)
    when eq(sel0, UInt<10>(196)) :
      connect u0, n196
    node n197 = eq(au65, bu65)
    when eq(sel1, UInt<10>(197)) :
      connect u1, n197
    node n198 = neq(as0, bs63)
    when eq(sel2, UInt<10>(198)) :
      connect u2, n198
    node n199 = neq(as0, bs65)
    when eq(sel3, UInt<10>(199)) :
      connect u3, n199
    node n200 = neq(as127, bs65)
    when eq(sel0, UInt<10>(200)) :
      connect u0, n200
    node n201 = neq(as128, bs127)
    when eq(sel1, UInt<10>(201)) :
      connect u1, n201
    node n202 = neq(as1, bs64)
    when eq(sel2, UInt<10>(202)) :
      connect u2, n202
    node n203 = neq(as1, bs127)
    when eq(sel3, UInt<10>(203)) :
      connect u3, n203
    node n204 = neq(as2, bs64)
    when eq(sel0, UInt<10>(204)) :
      connect u0, n204
    node n205 = neq(as63, bs64)
    when eq(sel1, UInt<10>(205)) :
      connect u1, n205
    node n206 = neq(as64, bs127)
    when eq(sel2, UInt<10>(206)) :
      connect u2, n206
    node n207 = neq(as65, bs65)
    when eq(sel3, UInt<10>(207)) :
      connect u3, n207
    node n208 = neq(au0, bu63)
    when eq(sel0, UInt<10>(208)) :
      connect u0, n208
    node n209 = neq(au127, bu63)
    when eq(sel1, UInt<10>(209)) :
      connect u1, n209
    node n210 = neq(au128, bu2)
    when eq(sel2, UInt<10>(210)) :
      connect u2, n210
    node n211 = neq(au1, bu127)
    when eq(sel3, UInt<10>(211)) :
      connect u3, n211
    node n212 = neq(au2, bu128)
    when eq(sel0, UInt<10>(212)) :
      connect u0, n212
    node n213 = neq(au63, bu1)
    when eq(sel1, UInt<10>(213)) :
      connect u1, n213
    node n214 = neq(au64, bu2)
    when eq(sel2, UInt<10>(214)) :
      connect u2, n214
    node n215 = neq(au65, bu63)
    when eq(sel3, UInt<10>(215)) :
      connect u3, n215
    node n216 = dshl(as0, bu1)
    when eq(sel0, UInt<10>(216)) :
      connect s0, n216
    node n217 = dshl(as0, bu2)
    when eq(sel1, UInt<10>(217)) :
      connect s1, n217
    node n218 = dshl(as127, bu1)
    when eq(sel2, UInt<10>(218)) :
      connect s2, n218
    node n219 = dshl(as128, bu0)
    when eq(sel3, UInt<10>(219)) :
      connect s3, n219
    node n220 = dshl(as1, bu2)
    when eq(sel0, UInt<10>(220)) :
      connect s0, n220
    node n221 = dshl(as1, bu1)
    when eq(sel1, UInt<10>(221)) :
      connect s1, n221
    node n222 = dshl(as2, bu1)
    when eq(sel2, UInt<10>(222)) :
      connect s2, n222
    node n223 = dshl(as2, bu0)
    when eq(sel3, UInt<10>(223)) :
      connect s3, n223
    node n224 = dshl(as63, bu0)
    when eq(sel0, UInt<10>(224)) :
      connect s0, n224
    node n225 = dshl(as64, bu1)
    when eq(sel1, UInt<10>(225)) :
      connect s1, n225
    node n226 = dshl(as64, bu2)
    when eq(sel2, UInt<10>(226)) :
      connect s2, n226
    node n227 = dshl(as65, bu1)
    when eq(sel3, UInt<10>(227)) :
      connect s3, n227
    node n228 = dshl(as65, bu0)
    when eq(sel0, UInt<10>(228)) :
      connect s0, n228
    node n229 = dshl(au0, bu0)
    when eq(sel1, UInt<10>(229)) :
      connect u1, n229
    node n230 = dshl(au127, bu0)
    when eq(sel2, UInt<10>(230)) :
      connect u2, n230
    node n231 = dshl(au128, bu0)
    when eq(sel3, UInt<10>(231)) :
      connect u3, n231
    node n232 = dshl(au1, bu1)
    when eq(sel0, UInt<10>(232)) :
      connect u0, n232
    node n233 = dshl(au2, bu2)
    when eq(sel1, UInt<10>(233)) :
      connect u1, n233
    node n234 = dshl(au63, bu0)
    when eq(sel2, UInt<10>(234)) :
      connect u2, n234
    node n235 = dshl(au64, bu2)
    when eq(sel3, UInt<10>(235)) :
      connect u3, n235
    node n236 = dshl(au65, bu2)
    when eq(sel0, UInt<10>(236)) :
      connect u0, n236
    node n237 = dshr(as0, bu1)
    when eq(sel1, UInt<10>(237)) :
      connect s1, n237
    node n238 = dshr(as0, bu2)
    when eq(sel2, UInt<10>(238)) :
      connect s2, n238
    node n239 = dshr(as127, bu127)
    when eq(sel3, UInt<10>(239)) :
      connect s3, n239
    node n240 = dshr(as127, bu128)
    when eq(sel0, UInt<10>(240)) :
      connect s0, n240
    node n241 = dshr(as128, bu128)
    when eq(sel1, UInt<10>(241)) :
      connect s1, n241
    node n242 = dshr(as128, bu64)
    when eq(sel2, UInt<10>(242)) :
      connect s2, n242
    node n243 = dshr(as1, bu64)
    when eq(sel3, UInt<10>(243)) :
      connect s3, n243
    node n244 = dshr(as1, bu127)
    when eq(sel0, UInt<10>(244)) :
      connect s0, n244
    node n245 = dshr(as2, bu127)
    when eq(sel1, UInt<10>(245)) :
      connect s1, n245
    node n246 = dshr(as63, bu2)
    when eq(sel2, UInt<10>(246)) :
      connect s2, n246
    node n247 = dshr(as63, bu64)
    when eq(sel3, UInt<10>(247)) :
      connect s3, n247
    node n248 = dshr(as64, bu127)
    when eq(sel0, UInt<10>(248)) :
      connect s0, n248
    node n249 = dshr(as64, bu65)
    when eq(sel1, UInt<10>(249)) :
      connect s1, n249
    node n250 = dshr(as65, bu127)
    when eq(sel2, UInt<10>(250)) :
      connect s2, n250
    node n251 = dshr(au0, bu128)
    when eq(sel3, UInt<10>(251)) :
      connect u3, n251
    node n252 = dshr(au127, bu65)
    when eq(sel0, UInt<10>(252)) :
      connect u0, n252
    node n253 = dshr(au128, bu64)
    when eq(sel1, UInt<10>(253)) :
      connect u1, n253
    node n254 = dshr(au1, bu64)
    when eq(sel2, UInt<10>(254)) :
      connect u2, n254
    node n255 = dshr(au2, bu128)
    when eq(sel3, UInt<10>(255)) :
      connect u3, n255
    node n256 = dshr(au63, bu63)
    when eq(sel0, UInt<10>(256)) :
      connect u0, n256
    node n257 = dshr(au64, bu2)
    when eq(sel1, UInt<10>(257)) :
      connect u1, n257
    node n258 = dshr(au65, bu1)
    when eq(sel2, UInt<10>(258)) :
      connect u2, n258
    node n259 = and(as0, bs63)
    when eq(sel3, UInt<10>(259)) :
      connect u3, n259
    node n260 = and(as127, bs65)
    when eq(sel0, UInt<10>(260)) :
      connect u0, n260
    node n261 = and(as127, bs64)
    when eq(sel1, UInt<10>(261)) :
      connect u1, n261
    node n262 = and(as128, bs64)
    when eq(sel2, UInt<10>(262)) :
      connect u2, n262
    node n263 = and(as128, bs65)
    when eq(sel3, UInt<10>(263)) :
      connect u3, n263
    node n264 = and(as1, bs2)
    when eq(sel0, UInt<10>(264)) :
      connect u0, n264
    node n265 = and(as1, bs127)
    when eq(sel1, UInt<10>(265)) :
      connect u1, n265
    node n266 = and(as2, bs1)
    when eq(sel2, UInt<10>(266)) :
      connect u2, n266
    node n267 = and(as2, bs65)
    when eq(sel3, UInt<10>(267)) :
      connect u3, n267
    node n268 = and(as63, bs65)
    when eq(sel0, UInt<10>(268)) :
      connect u0, n268
    node n269 = and(as63, bs0)
    when eq(sel1, UInt<10>(269)) :
      connect u1, n269
    node n270 = and(as64, bs128)
    when eq(sel2, UInt<10>(270)) :
      connect u2, n270
    node n271 = and(as64, bs127)
    when eq(sel3, UInt<10>(271)) :
      connect u3, n271
    node n272 = and(as65, bs128)
    when eq(sel0, UInt<10>(272)) :
      connect u0, n272
    node n273 = and(as65, bs64)
    when eq(sel1, UInt<10>(273)) :
      connect u1, n273
    node n274 = and(au0, bu1)
    when eq(sel2, UInt<10>(274)) :
      connect u2, n274
    node n275 = and(au127, bu2)
    when eq(sel3, UInt<10>(275)) :
      connect u3, n275
    node n276 = and(au128, bu1)
    when eq(sel0, UInt<10>(276)) :
      connect u0, n276
    node n277 = and(au1, bu127)
    when eq(sel1, UInt<10>(277)) :
      connect u1, n277
    node n278 = and(au2, bu2)
    when eq(sel2, UInt<10>(278)) :
      connect u2, n278
    node n279 = and(au63, bu64)
    when eq(sel3, UInt<10>(279)) :
      connect u3, n279
    node n280 = and(au64, bu127)
    when eq(sel0, UInt<10>(280)) :
      connect u0, n280
    node n281 = and(au65, bu65)
    when eq(sel1, UInt<10>(281)) :
      connect u1, n281
    node n282 = or(as0, bs128)
    when eq(sel2, UInt<10>(282)) :
      connect u2, n282
    node n283 = or(as0, bs2)
    when eq(sel3, UInt<10>(283)) :
      connect u3, n283
    node n284 = or(as127, bs2)
    when eq(sel0, UInt<10>(284)) :
      connect u0, n284
    node n285 = or(as128, bs65)
    when eq(sel1, UInt<10>(285)) :
      connect u1, n285
    node n286 = or(as1, bs128)
    when eq(sel2, UInt<10>(286)) :
      connect u2, n286
    node n287 = or(as1, bs64)
    when eq(sel3, UInt<10>(287)) :
      connect u3, n287
    node n288 = or(as2, bs65)
    when eq(sel0, UInt<10>(288)) :
      connect u0, n288
    node n289 = or(as63, bs128)
    when eq(sel1, UInt<10>(289)) :
      connect u1, n289
    node n290 = or(as64, bs65)
    when eq(sel2, UInt<10>(290)) :
      connect u2, n290
    node n291 = or(as65, bs63)
    when eq(sel3, UInt<10>(291)) :
      connect u3, n291
    node n292 = or(au0, bu65)
    when eq(sel0, UInt<10>(292)) :
      connect u0, n292
    node n293 = or(au127, bu2)
    when eq(sel1, UInt<10>(293)) :
      connect u1, n293
    node n294 = or(au128, bu128)
    when eq(sel2, UInt<10>(294)) :
      connect u2, n294
    node n295 = or(au1, bu128)
    when eq(sel3, UInt<10>(295)) :
      connect u3, n295
    node n296 = or(au2, bu128)
    when eq(sel0, UInt<10>(296)) :
      connect u0, n296
    node n297 = or(au63, bu64)
    when eq(sel1, UInt<10>(297)) :
      connect u1, n297
    node n298 = or(au64, bu127)
    when eq(sel2, UInt<10>(298)) :
      connect u2, n298
    node n299 = or(au65, bu128)
    when eq(sel3, UInt<10>(299)) :
      connect u3, n299
    node n300 = xor(as0, bs64)
    when eq(sel0, UInt<10>(300)) :
      connect u0, n300
    node n301 = xor(as0, bs65)
    when eq(sel1, UInt<10>(301)) :
      connect u1, n301
    node n302 = xor(as127, bs127)
    when eq(sel2, UInt<10>(302)) :
      connect u2, n302
    node n303 = xor(as128, bs63)
    when eq(sel3, UInt<10>(303)) :
      connect u3, n303
    node n304 = xor(as1, bs2)
    when eq(sel0, UInt<10>(304)) :
      connect u0, n304
    node n305 = xor(as1, bs63)
    when eq(sel1, UInt<10>(305)) :
      connect u1, n305
    node n306 = xor(as2, bs63)
    when eq(sel2, UInt<10>(306)) :
      connect u2, n306
    node n307 = xor(as63, bs64)
    when eq(sel3, UInt<10>(307)) :
      connect u3, n307
    node n308 = xor(as64, bs63)
    when eq(sel0, UInt<10>(308)) :
      connect u0, n308
    node n309 = xor(as65, bs65)
    when eq(sel1, UInt<10>(309)) :
      connect u1, n309
    node n310 = xor(au0, bu128)
    when eq(sel2, UInt<10>(310)) :
      connect u2, n310
    node n311 = xor(au127, bu127)
    when eq(sel3, UInt<10>(311)) :
      connect u3, n311
    node n312 = xor(au128, bu65)
    when eq(sel0, UInt<10>(312)) :
      connect u0, n312
    node n313 = xor(au1, bu2)
    when eq(sel1, UInt<10>(313)) :
      connect u1, n313
    node n314 = xor(au2, bu2)
    when eq(sel2, UInt<10>(314)) :
      connect u2, n314
    node n315 = xor(au63, bu64)
    when eq(sel3, UInt<10>(315)) :
      connect u3, n315
    node n316 = xor(au64, bu128)
    when eq(sel0, UInt<10>(316)) :
      connect u0, n316
    node n317 = xor(au65, bu2)
    when eq(sel1, UInt<10>(317)) :
      connect u1, n317
    node n318 = cat(as0, bs128)
    when eq(sel2, UInt<10>(318)) :
      connect u2, n318
    node n319 = cat(as0, bs65)
    when eq(sel3, UInt<10>(319)) :
      connect u3, n319
    node n320 = cat(as127, bs1)
    when eq(sel0, UInt<10>(320)) :
      connect u0, n320
    node n321 = cat(as128, bs0)
    when eq(sel1, UInt<10>(321)) :
      connect u1, n321
    node n322 = cat(as1, bs64)
    when eq(sel2, UInt<10>(322)) :
      connect u2, n322
    node n323 = cat(as1, bs65)
    when eq(sel3, UInt<10>(323)) :
      connect u3, n323
    node n324 = cat(as2, bs65)
    when eq(sel0, UInt<10>(324)) :
      connect u0, n324
    node n325 = cat(as63, bs65)
    when eq(sel1, UInt<10>(325)) :
      connect u1, n325
    node n326 = cat(as64, bs64)
    when eq(sel2, UInt<10>(326)) :
      connect u2, n326
    node n327 = cat(as65, bs63)
    when eq(sel3, UInt<10>(327)) :
      connect u3, n327
    node n328 = cat(au0, bu127)
    when eq(sel0, UInt<10>(328)) :
      connect u0, n328
    node n329 = cat(au127, bu1)
    when eq(sel1, UInt<10>(329)) :
      connect u1, n329
    node n330 = cat(au128, bu0)
    when eq(sel2, UInt<10>(330)) :
      connect u2, n330
    node n331 = cat(au1, bu65)
    when eq(sel3, UInt<10>(331)) :
      connect u3, n331
    node n332 = cat(au2, bu65)
    when eq(sel0, UInt<10>(332)) :
      connect u0, n332
    node n333 = cat(au63, bu63)
    when eq(sel1, UInt<10>(333)) :
      connect u1, n333
    node n334 = cat(au64, bu63)
    when eq(sel2, UInt<10>(334)) :
      connect u2, n334
    node n335 = cat(au65, bu63)
    when eq(sel3, UInt<10>(335)) :
      connect u3, n335
    node n336 = pad(as0, 128)
    when eq(sel0, UInt<10>(336)) :
      connect s0, n336
    node n337 = pad(as127, 1)
    when eq(sel1, UInt<10>(337)) :
      connect s1, n337
    node n338 = pad(as128, 64)
    when eq(sel2, UInt<10>(338)) :
      connect s2, n338
    node n339 = pad(as1, 1)
    when eq(sel3, UInt<10>(339)) :
      connect s3, n339
    node n340 = pad(as2, 128)
    when eq(sel0, UInt<10>(340)) :
      connect s0, n340
    node n341 = pad(as63, 0)
    when eq(sel1, UInt<10>(341)) :
      connect s1, n341
    node n342 = pad(as64, 1)
    when eq(sel2, UInt<10>(342)) :
      connect s2, n342
    node n343 = pad(as65, 128)
    when eq(sel3, UInt<10>(343)) :
      connect s3, n343
    node n344 = pad(au0, 64)
    when eq(sel0, UInt<10>(344)) :
      connect u0, n344
    node n345 = pad(au127, 1)
    when eq(sel1, UInt<10>(345)) :
      connect u1, n345
    node n346 = pad(au128, 128)
    when eq(sel2, UInt<10>(346)) :
      connect u2, n346
    node n347 = pad(au1, 65)
    when eq(sel3, UInt<10>(347)) :
      connect u3, n347
    node n348 = pad(au2, 128)
    when eq(sel0, UInt<10>(348)) :
      connect u0, n348
    node n349 = pad(au63, 65)
    when eq(sel1, UInt<10>(349)) :
      connect u1, n349
    node n350 = pad(au64, 64)
    when eq(sel2, UInt<10>(350)) :
      connect u2, n350
    node n351 = pad(au65, 128)
    when eq(sel3, UInt<10>(351)) :
      connect u3, n351
    node n352 = asUInt(as0)
    when eq(sel0, UInt<10>(352)) :
      connect u0, n352
    node n353 = asUInt(as127)
    when eq(sel1, UInt<10>(353)) :
      connect u1, n353
    node n354 = asUInt(as128)
    when eq(sel2, UInt<10>(354)) :
      connect u2, n354
    node n355 = asUInt(as1)
    when eq(sel3, UInt<10>(355)) :
      connect u3, n355
    node n356 = asUInt(as2)
    when eq(sel0, UInt<10>(356)) :
      connect u0, n356
    node n357 = asUInt(as63)
    when eq(sel1, UInt<10>(357)) :
      connect u1, n357
    node n358 = asUInt(as64)
    when eq(sel2, UInt<10>(358)) :
      connect u2, n358
    node n359 = asUInt(as65)
    when eq(sel3, UInt<10>(359)) :
      connect u3, n359
    node n360 = asUInt(au0)
    when eq(sel0, UInt<10>(360)) :
      connect u0, n360
    node n361 = asUInt(au127)
    when eq(sel1, UInt<10>(361)) :
      connect u1, n361
    node n362 = asUInt(au128)
    when eq(sel2, UInt<10>(362)) :
      connect u2, n362
    node n363 = asUInt(au1)
    when eq(sel3, UInt<10>(363)) :
      connect u3, n363
    node n364 = asUInt(au2)
    when eq(sel0, UInt<10>(364)) :
      connect u0, n364
    node n365 = asUInt(au63)
    when eq(sel1, UInt<10>(365)) :
      connect u1, n365
    node n366 = asUInt(au64)
    when eq(sel2, UInt<10>(366)) :
      connect u2, n366
    node n367 = asUInt(au65)
    when eq(sel3, UInt<10>(367)) :
      connect u3, n367
    node n368 = asSInt(as0)
    when eq(sel0, UInt<10>(368)) :
      connect s0, n368
    node n369 = asSInt(as127)
    when eq(sel1, UInt<10>(369)) :
      connect s1, n369
    node n370 = asSInt(as128)
    when eq(sel2, UInt<10>(370)) :
      connect s2, n370
    node n371 = asSInt(as1)
    when eq(sel3, UInt<10>(371)) :
      connect s3, n371
    node n372 = asSInt(as2)
    when eq(sel0, UInt<10>(372)) :
      connect s0, n372
    node n373 = asSInt(as63)
    when eq(sel1, UInt<10>(373)) :
      connect s1, n373
    node n374 = asSInt(as64)
    when eq(sel2, UInt<10>(374)) :
      connect s2, n374
    node n375 = asSInt(as65)
    when eq(sel3, UInt<10>(375)) :
      connect s3, n375
    node n376 = asSInt(au0)
    when eq(sel0, UInt<10>(376)) :
      connect s0, n376
    node n377 = asSInt(au127)
    when eq(sel1, UInt<10>(377)) :
      connect s1, n377
    node n378 = asSInt(au128)
    when eq(sel2, UInt<10>(378)) :
      connect s2, n378
    node n379 = asSInt(au1)
    when eq(sel3, UInt<10>(379)) :
      connect s3, n379
    node n380 = asSInt(au2)
    when eq(sel0, UInt<10>(380)) :
      connect s0, n380
    node n381 = asSInt(au63)
    when eq(sel1, UInt<10>(381)) :
      connect s1, n381
    node n382 = asSInt(au64)
    when eq(sel2, UInt<10>(382)) :
      connect s2, n382
    node n383 = asSInt(au65)
    when eq(sel3, UInt<10>(383)) :
      connect s3, n383
    node n384 = shl(as0, 64)
    when eq(sel0, UInt<10>(384)) :
      connect s0, n384
    node n385 = shl(as127, 0)
    when eq(sel1, UInt<10>(385)) :
      connect s1, n385
    node n386 = shl(as128, 0)
    when eq(sel2, UInt<10>(386)) :
      connect s2, n386
    node n387 = shl(as1, 63)
    when eq(sel3, UInt<10>(387)) :
      connect s3, n387
    node n388 = shl(as2, 63)
    when eq(sel0, UInt<10>(388)) :
      connect s0, n388
    node n389 = shl(as63, 1)
    when eq(sel1, UInt<10>(389)) :
      connect s1, n389
    node n390 = shl(as64, 63)
    when eq(sel2, UInt<10>(390)) :
      connect s2, n390
    node n391 = shl(as65, 0)
    when eq(sel3, UInt<10>(391)) :
      connect s3, n391
    node n392 = shl(au0, 0)
    when eq(sel0, UInt<10>(392)) :
      connect u0, n392
    node n393 = shl(au127, 0)
    when eq(sel1, UInt<10>(393)) :
      connect u1, n393
    node n394 = shl(au128, 0)
    when eq(sel2, UInt<10>(394)) :
      connect u2, n394
    node n395 = shl(au1, 0)
    when eq(sel3, UInt<10>(395)) :
      connect u3, n395
    node n396 = shl(au2, 0)
    when eq(sel0, UInt<10>(396)) :
      connect u0, n396
    node n397 = shl(au63, 1)
    when eq(sel1, UInt<10>(397)) :
      connect u1, n397
    node n398 = shl(au64, 0)
    when eq(sel2, UInt<10>(398)) :
      connect u2, n398
    node n399 = shl(au65, 1)
    when eq(sel3, UInt<10>(399)) :
      connect u3, n399
    node n400 = shr(as0, 1)
    when eq(sel0, UInt<10>(400)) :
      connect s0, n400
    node n401 = shr(as0, 1267650600228229401496703205376)
    when eq(sel1, UInt<10>(401)) :
      connect s1, n401
    node n402 = shr(as127, 64)
    when eq(sel2, UInt<10>(402)) :
      connect s2, n402
    node n403 = shr(as127, 63)
    when eq(sel3, UInt<10>(403)) :
      connect s3, n403
    node n404 = shr(as128, 128)
    when eq(sel0, UInt<10>(404)) :
      connect s0, n404
    node n405 = shr(as128, 1)
    when eq(sel1, UInt<10>(405)) :
      connect s1, n405
    node n406 = shr(as1, 64)
    when eq(sel2, UInt<10>(406)) :
      connect s2, n406
    node n407 = shr(as1, 63)
    when eq(sel3, UInt<10>(407)) :
      connect s3, n407
    node n408 = shr(as2, 128)
    when eq(sel0, UInt<10>(408)) :
      connect s0, n408
    node n409 = shr(as2, 127)
    when eq(sel1, UInt<10>(409)) :
      connect s1, n409
    node n410 = shr(as63, 127)
    when eq(sel2, UInt<10>(410)) :
      connect s2, n410
    node n411 = shr(as63, 0)
    when eq(sel3, UInt<10>(411)) :
      connect s3, n411
    node n412 = shr(as64, 63)
    when eq(sel0, UInt<10>(412)) :
      connect s0, n412
    node n413 = shr(as64, 0)
    when eq(sel1, UInt<10>(413)) :
      connect s1, n413
    node n414 = shr(as65, 2)
    when eq(sel2, UInt<10>(414)) :
      connect s2, n414
    node n415 = shr(as65, 127)
    when eq(sel3, UInt<10>(415)) :
      connect s3, n415
    node n416 = shr(au0, 2)
    when eq(sel0, UInt<10>(416)) :
      connect u0, n416
    node n417 = shr(au127, 1)
    when eq(sel1, UInt<10>(417)) :
      connect u1, n417
    node n418 = shr(au128, 63)
    when eq(sel2, UInt<10>(418)) :
      connect u2, n418
    node n419 = shr(au1, 1267650600228229401496703205376)
    when eq(sel3, UInt<10>(419)) :
      connect u3, n419
    node n420 = shr(au2, 127)
    when eq(sel0, UInt<10>(420)) :
      connect u0, n420
    node n421 = shr(au63, 128)
    when eq(sel1, UInt<10>(421)) :
      connect u1, n421
    node n422 = shr(au64, 2)
    when eq(sel2, UInt<10>(422)) :
      connect u2, n422
    node n423 = shr(au65, 1267650600228229401496703205376)
    when eq(sel3, UInt<10>(423)) :
      connect u3, n423
    node n424 = cvt(as0)
    when eq(sel0, UInt<10>(424)) :
      connect s0, n424
    node n425 = cvt(as127)
    when eq(sel1, UInt<10>(425)) :
      connect s1, n425
    node n426 = cvt(as128)
    when eq(sel2, UInt<10>(426)) :
      connect s2, n426
    node n427 = cvt(as1)
    when eq(sel3, UInt<10>(427)) :
      connect s3, n427
    node n428 = cvt(as2)
    when eq(sel0, UInt<10>(428)) :
      connect s0, n428
    node n429 = cvt(as63)
    when eq(sel1, UInt<10>(429)) :
      connect s1, n429
    node n430 = cvt(as64)
    when eq(sel2, UInt<10>(430)) :
      connect s2, n430
    node n431 = cvt(as65)
    when eq(sel3, UInt<10>(431)) :
      connect s3, n431
    node n432 = cvt(au0)
    when eq(sel0, UInt<10>(432)) :
      connect s0, n432
    node n433 = cvt(au127)
    when eq(sel1, UInt<10>(433)) :
      connect s1, n433
    node n434 = cvt(au1)
    when eq(sel2, UInt<10>(434)) :
      connect s2, n434
    node n435 = cvt(au2)
    when eq(sel3, UInt<10>(435)) :
      connect s3, n435
    node n436 = cvt(au63)
    when eq(sel0, UInt<10>(436)) :
      connect s0, n436
    node n437 = cvt(au64)
    when eq(sel1, UInt<10>(437)) :
      connect s1, n437
    node n438 = cvt(au65)
    when eq(sel2, UInt<10>(438)) :
      connect s2, n438
    node n439 = neg(as0)
    when eq(sel3, UInt<10>(439)) :
      connect s3, n439
    node n440 = neg(as127)
    when eq(sel0, UInt<10>(440)) :
      connect s0, n440
    node n441 = neg(as1)
    when eq(sel1, UInt<10>(441)) :
      connect s1, n441
    node n442 = neg(as2)
    when eq(sel2, UInt<10>(442)) :
      connect s2, n442
    node n443 = neg(as63)
    when eq(sel3, UInt<10>(443)) :
      connect s3, n443
    node n444 = neg(as64)
    when eq(sel0, UInt<10>(444)) :
      connect s0, n444
    node n445 = neg(as65)
    when eq(sel1, UInt<10>(445)) :
      connect s1, n445
    node n446 = neg(au0)
    when eq(sel2, UInt<10>(446)) :
      connect s2, n446
    node n447 = neg(au127)
    when eq(sel3, UInt<10>(447)) :
      connect s3, n447
    node n448 = neg(au1)
    when eq(sel0, UInt<10>(448)) :
      connect s0, n448
    node n449 = neg(au2)
    when eq(sel1, UInt<10>(449)) :
      connect s1, n449
    node n450 = neg(au63)
    when eq(sel2, UInt<10>(450)) :
      connect s2, n450
    node n451 = neg(au64)
    when eq(sel3, UInt<10>(451)) :
      connect s3, n451
    node n452 = neg(au65)
    when eq(sel0, UInt<10>(452)) :
      connect s0, n452
    node n453 = not(as0)
    when eq(sel1, UInt<10>(453)) :
      connect u1, n453
    node n454 = not(as127)
    when eq(sel2, UInt<10>(454)) :
      connect u2, n454
    node n455 = not(as128)
    when eq(sel3, UInt<10>(455)) :
      connect u3, n455
    node n456 = not(as1)
    when eq(sel0, UInt<10>(456)) :
      connect u0, n456
    node n457 = not(as2)
    when eq(sel1, UInt<10>(457)) :
      connect u1, n457
    node n458 = not(as63)
    when eq(sel2, UInt<10>(458)) :
      connect u2, n458
    node n459 = not(as64)
    when eq(sel3, UInt<10>(459)) :
      connect u3, n459
    node n460 = not(as65)
    when eq(sel0, UInt<10>(460)) :
      connect u0, n460
    node n461 = not(au0)
    when eq(sel1, UInt<10>(461)) :
      connect u1, n461
    node n462 = not(au127)
    when eq(sel2, UInt<10>(462)) :
      connect u2, n462
    node n463 = not(au128)
    when eq(sel3, UInt<10>(463)) :
      connect u3, n463
    node n464 = not(au1)
    when eq(sel0, UInt<10>(464)) :
      connect u0, n464
    node n465 = not(au2)
    when eq(sel1, UInt<10>(465)) :
      connect u1, n465
    node n466 = not(au63)
    when eq(sel2, UInt<10>(466)) :
      connect u2, n466
    node n467 = not(au64)
    when eq(sel3, UInt<10>(467)) :
      connect u3, n467
    node n468 = not(au65)
    when eq(sel0, UInt<10>(468)) :
      connect u0, n468
    node n469 = andr(as0)
    when eq(sel1, UInt<10>(469)) :
      connect u1, n469
    node n470 = andr(as127)
    when eq(sel2, UInt<10>(470)) :
      connect u2, n470
    node n471 = andr(as128)
    when eq(sel3, UInt<10>(471)) :
      connect u3, n471
    node n472 = andr(as1)
    when eq(sel0, UInt<10>(472)) :
      connect u0, n472
    node n473 = andr(as2)
    when eq(sel1, UInt<10>(473)) :
      connect u1, n473
    node n474 = andr(as63)
    when eq(sel2, UInt<10>(474)) :
      connect u2, n474
    node n475 = andr(as64)
    when eq(sel3, UInt<10>(475)) :
      connect u3, n475
    node n476 = andr(as65)
    when eq(sel0, UInt<10>(476)) :
      connect u0, n476
    node n477 = andr(au0)
    when eq(sel1, UInt<10>(477)) :
      connect u1, n477
    node n478 = andr(au127)
    when eq(sel2, UInt<10>(478)) :
      connect u2, n478
    node n479 = andr(au128)
    when eq(sel3, UInt<10>(479)) :
      connect u3, n479
    node n480 = andr(au1)
    when eq(sel0, UInt<10>(480)) :
      connect u0, n480
    node n481 = andr(au2)
    when eq(sel1, UInt<10>(481)) :
      connect u1, n481
    node n482 = andr(au63)
    when eq(sel2, UInt<10>(482)) :
      connect u2, n482
    node n483 = andr(au64)
    when eq(sel3, UInt<10>(483)) :
      connect u3, n483
    node n484 = andr(au65)
    when eq(sel0, UInt<10>(484)) :
      connect u0, n484
    node n485 = orr(as0)
    when eq(sel1, UInt<10>(485)) :
      connect u1, n485
    node n486 = orr(as127)
    when eq(sel2, UInt<10>(486)) :
      connect u2, n486
    node n487 = orr(as128)
    when eq(sel3, UInt<10>(487)) :
      connect u3, n487
    node n488 = orr(as1)
    when eq(sel0, UInt<10>(488)) :
      connect u0, n488
    node n489 = orr(as2)
    when eq(sel1, UInt<10>(489)) :
      connect u1, n489
    node n490 = orr(as63)
    when eq(sel2, UInt<10>(490)) :
      connect u2, n490
    node n491 = orr(as64)
    when eq(sel3, UInt<10>(491)) :
      connect u3, n491
    node n492 = orr(as65)
    when eq(sel0, UInt<10>(492)) :
      connect u0, n492
    node n493 = orr(au0)
    when eq(sel1, UInt<10>(493)) :
      connect u1, n493
    node n494 = orr(au127)
    when eq(sel2, UInt<10>(494)) :
      connect u2, n494
    node n495 = orr(au128)
    when eq(sel3, UInt<10>(495)) :
      connect u3, n495
    node n496 = orr(au1)
    when eq(sel0, UInt<10>(496)) :
      connect u0, n496
    node n497 = orr(au2)
    when eq(sel1, UInt<10>(497)) :
      connect u1, n497
    node n498 = orr(au63)
    when eq(sel2, UInt<10>(498)) :
      connect u2, n498
    node n499 = orr(au64)
    when eq(sel3, UInt<10>(499)) :
      connect u3, n499
    node n500 = orr(au65)
    when eq(sel0, UInt<10>(500)) :
      connect u0, n500
    node n501 = xorr(as0)
    when eq(sel1, UInt<10>(501)) :
      connect u1, n501
    node n502 = xorr(as127)
    when eq(sel2, UInt<10>(502)) :
      connect u2, n502
    node n503 = xorr(as128)
    when eq(sel3, UInt<10>(503)) :
      connect u3, n503
    node n504 = xorr(as1)
    when eq(sel0, UInt<10>(504)) :
      connect u0, n504
    node n505 = xorr(as2)
    when eq(sel1, UInt<10>(505)) :
      connect u1, n505
    node n506 = xorr(as63)
    when eq(sel2, UInt<10>(506)) :
      connect u2, n506
    node n507 = xorr(as64)
    when eq(sel3, UInt<10>(507)) :
      connect u3, n507
    node n508 = xorr(as65)
    when eq(sel0, UInt<10>(508)) :
      connect u0, n508
    node n509 = xorr(au0)
    when eq(sel1, UInt<10>(509)) :
      connect u1, n509
    node n510 = xorr(au127)
    when eq(sel2, UInt<10>(510)) :
      connect u2, n510
    node n511 = xorr(au128)
    when eq(sel3, UInt<10>(511)) :
      connect u3, n511
    node n512 = xorr(au1)
    when eq(sel0, UInt<10>(512)) :
      connect u0, n512
    node n513 = xorr(au2)
    when eq(sel1, UInt<10>(513)) :
      connect u1, n513
    node n514 = xorr(au63)
    when eq(sel2, UInt<10>(514)) :
      connect u2, n514
    node n515 = xorr(au64)
    when eq(sel3, UInt<10>(515)) :
      connect u3, n515
    node n516 = xorr(au65)
    when eq(sel0, UInt<10>(516)) :
      connect u0, n516
    node n517 = bits(as127, 126, 126)
    when eq(sel1, UInt<10>(517)) :
      connect u1, n517
    node n518 = bits(as128, 64, 64)
    when eq(sel2, UInt<10>(518)) :
      connect u2, n518
    node n519 = bits(as1, 0, 0)
    when eq(sel3, UInt<10>(519)) :
      connect u3, n519
    node n520 = bits(as2, 1, 0)
    when eq(sel0, UInt<10>(520)) :
      connect u0, n520
    node n521 = bits(as63, 31, 31)
    when eq(sel1, UInt<10>(521)) :
      connect u1, n521
    node n522 = bits(as63, 61, 1)
    when eq(sel2, UInt<10>(522)) :
      connect u2, n522
    node n523 = bits(as64, 63, 63)
    when eq(sel3, UInt<10>(523)) :
      connect u3, n523
    node n524 = bits(as65, 32, 0)
    when eq(sel0, UInt<10>(524)) :
      connect u0, n524
    node n525 = bits(as65, 64, 0)
    when eq(sel1, UInt<10>(525)) :
      connect u1, n525
    node n526 = bits(au127, 63, 63)
    when eq(sel2, UInt<10>(526)) :
      connect u2, n526
    node n527 = bits(au128, 126, 1)
    when eq(sel3, UInt<10>(527)) :
      connect u3, n527
    node n528 = bits(au1, 0, 0)
    when eq(sel0, UInt<10>(528)) :
      connect u0, n528
    node n529 = bits(au2, 1, 1)
    when eq(sel1, UInt<10>(529)) :
      connect u1, n529
    node n530 = bits(au2, 1, 0)
    when eq(sel2, UInt<10>(530)) :
      connect u2, n530
    node n531 = bits(au63, 62, 0)
    when eq(sel3, UInt<10>(531)) :
      connect u3, n531
    node n532 = bits(au63, 62, 62)
    when eq(sel0, UInt<10>(532)) :
      connect u0, n532
    node n533 = bits(au64, 63, 63)
    when eq(sel1, UInt<10>(533)) :
      connect u1, n533
    node n534 = bits(au65, 64, 0)
    when eq(sel2, UInt<10>(534)) :
      connect u2, n534
    node n535 = head(as0, 0)
    when eq(sel3, UInt<10>(535)) :
      connect u3, n535
    node n536 = head(as127, 63)
    when eq(sel0, UInt<10>(536)) :
      connect u0, n536
    node n537 = head(as128, 1)
    when eq(sel1, UInt<10>(537)) :
      connect u1, n537
    node n538 = head(as1, 0)
    when eq(sel2, UInt<10>(538)) :
      connect u2, n538
    node n539 = head(as2, 1)
    when eq(sel3, UInt<10>(539)) :
      connect u3, n539
    node n540 = head(as63, 63)
    when eq(sel0, UInt<10>(540)) :
      connect u0, n540
    node n541 = head(as64, 1)
    when eq(sel1, UInt<10>(541)) :
      connect u1, n541
    node n542 = head(as65, 32)
    when eq(sel2, UInt<10>(542)) :
      connect u2, n542
    node n543 = head(au0, 0)
    when eq(sel3, UInt<10>(543)) :
      connect u3, n543
    node n544 = head(au127, 0)
    when eq(sel0, UInt<10>(544)) :
      connect u0, n544
    node n545 = head(au128, 1)
    when eq(sel1, UInt<10>(545)) :
      connect u1, n545
    node n546 = head(au1, 1)
    when eq(sel2, UInt<10>(546)) :
      connect u2, n546
    node n547 = head(au2, 1)
    when eq(sel3, UInt<10>(547)) :
      connect u3, n547
    node n548 = head(au63, 0)
    when eq(sel0, UInt<10>(548)) :
      connect u0, n548
    node n549 = head(au64, 0)
    when eq(sel1, UInt<10>(549)) :
      connect u1, n549
    node n550 = head(au65, 0)
    when eq(sel2, UInt<10>(550)) :
      connect u2, n550
    node n551 = tail(as0, 0)
    when eq(sel3, UInt<10>(551)) :
      connect u3, n551
    node n552 = tail(as127, 127)
    when eq(sel0, UInt<10>(552)) :
      connect u0, n552
    node n553 = tail(as128, 64)
    when eq(sel1, UInt<10>(553)) :
      connect u1, n553
    node n554 = tail(as1, 0)
    when eq(sel2, UInt<10>(554)) :
      connect u2, n554
    node n555 = tail(as2, 1)
    when eq(sel3, UInt<10>(555)) :
      connect u3, n555
    node n556 = tail(as63, 0)
    when eq(sel0, UInt<10>(556)) :
      connect u0, n556
    node n557 = tail(as64, 1)
    when eq(sel1, UInt<10>(557)) :
      connect u1, n557
    node n558 = tail(as65, 32)
    when eq(sel2, UInt<10>(558)) :
      connect u2, n558
    node n559 = tail(au0, 0)
    when eq(sel3, UInt<10>(559)) :
      connect u3, n559
    node n560 = tail(au127, 0)
    when eq(sel0, UInt<10>(560)) :
      connect u0, n560
    node n561 = tail(au128, 128)
    when eq(sel1, UInt<10>(561)) :
      connect u1, n561
    node n562 = tail(au1, 0)
    when eq(sel2, UInt<10>(562)) :
      connect u2, n562
    node n563 = tail(au2, 0)
    when eq(sel3, UInt<10>(563)) :
      connect u3, n563
    node n564 = tail(au63, 31)
    when eq(sel0, UInt<10>(564)) :
      connect u0, n564
    node n565 = tail(au64, 1)
    when eq(sel1, UInt<10>(565)) :
      connect u1, n565
    node n566 = tail(au65, 1)
    when eq(sel2, UInt<10>(566)) :
      connect u2, n566
    node n567 = sub(au4, bu4)
    when eq(sel3, UInt<10>(567)) :
      connect u3, n567
    node n568 = neg(as4)
    when eq(sel0, UInt<10>(568)) :
      connect s0, n568
    node n569 = shr(as4, 1)
    when eq(sel1, UInt<10>(569)) :
      connect s1, n569
    node n570 = shr(au4, 9)
    when eq(sel2, UInt<10>(570)) :
      connect u2, n570
    node n571 = div(as4, bs4)
    when eq(sel3, UInt<10>(571)) :
      connect s3, n571
    node n572 = rem(as4, bs4)
    when eq(sel0, UInt<10>(572)) :
      connect s0, n572
    node n573 = rem(au4, bu4)
    when eq(sel1, UInt<10>(573)) :
      connect u1, n573
