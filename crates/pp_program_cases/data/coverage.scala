// The datatypes of the matches that the task `coverage` makes, which knows them by their places. `kinds` has them all, so
// that none is left out of the program.
object Coverage {
  sealed abstract class Pair
  case class IsPair(first: Boolean, second: Boolean) extends Pair

  sealed abstract class Pairs
  case class ArePairs(f0: Pair, f1: Pair, f2: Pair, f3: Pair, f4: Pair, f5: Pair, f6: Pair, f7: Pair, f8: Pair,
      f9: Pair, f10: Pair, f11: Pair, f12: Pair, f13: Pair, f14: Pair, f15: Pair) extends Pairs

  sealed abstract class Row
  case class IsRow(f0: Boolean, f1: Boolean, f2: Boolean, f3: Boolean, f4: Boolean, f5: Boolean, f6: Boolean,
      f7: Boolean, f8: Boolean, f9: Boolean, f10: Boolean, f11: Boolean, f12: Boolean, f13: Boolean, f14: Boolean,
      f15: Boolean) extends Row

  sealed abstract class Grid
  case class IsGrid(f0: Row, f1: Row, f2: Row, f3: Row, f4: Row, f5: Row, f6: Row, f7: Row, f8: Row, f9: Row,
      f10: Row, f11: Row, f12: Row, f13: Row, f14: Row, f15: Row) extends Grid

  sealed abstract class Wide
  case class Wide0(f0: Boolean, f1: Boolean, f2: Boolean, f3: Boolean, f4: Boolean, f5: Boolean, f6: Boolean,
      f7: Boolean, f8: Boolean, f9: Boolean, f10: Boolean, f11: Boolean, f12: Boolean, f13: Boolean, f14: Boolean,
      f15: Boolean) extends Wide
  case class Wide1(f0: Boolean, f1: Boolean, f2: Boolean, f3: Boolean, f4: Boolean, f5: Boolean, f6: Boolean,
      f7: Boolean, f8: Boolean, f9: Boolean, f10: Boolean, f11: Boolean, f12: Boolean, f13: Boolean, f14: Boolean,
      f15: Boolean) extends Wide
  case class Wide2(f0: Boolean, f1: Boolean, f2: Boolean, f3: Boolean, f4: Boolean, f5: Boolean, f6: Boolean,
      f7: Boolean, f8: Boolean, f9: Boolean, f10: Boolean, f11: Boolean, f12: Boolean, f13: Boolean, f14: Boolean,
      f15: Boolean) extends Wide
  case class Wide3(f0: Boolean, f1: Boolean, f2: Boolean, f3: Boolean, f4: Boolean, f5: Boolean, f6: Boolean,
      f7: Boolean, f8: Boolean, f9: Boolean, f10: Boolean, f11: Boolean, f12: Boolean, f13: Boolean, f14: Boolean,
      f15: Boolean) extends Wide
  case class Wide4(f0: Boolean, f1: Boolean, f2: Boolean, f3: Boolean, f4: Boolean, f5: Boolean, f6: Boolean,
      f7: Boolean, f8: Boolean, f9: Boolean, f10: Boolean, f11: Boolean, f12: Boolean, f13: Boolean, f14: Boolean,
      f15: Boolean) extends Wide
  case class Wide5(f0: Boolean, f1: Boolean, f2: Boolean, f3: Boolean, f4: Boolean, f5: Boolean, f6: Boolean,
      f7: Boolean, f8: Boolean, f9: Boolean, f10: Boolean, f11: Boolean, f12: Boolean, f13: Boolean, f14: Boolean,
      f15: Boolean) extends Wide
  case class Wide6(f0: Boolean, f1: Boolean, f2: Boolean, f3: Boolean, f4: Boolean, f5: Boolean, f6: Boolean,
      f7: Boolean, f8: Boolean, f9: Boolean, f10: Boolean, f11: Boolean, f12: Boolean, f13: Boolean, f14: Boolean,
      f15: Boolean) extends Wide
  case class Wide7(f0: Boolean, f1: Boolean, f2: Boolean, f3: Boolean, f4: Boolean, f5: Boolean, f6: Boolean,
      f7: Boolean, f8: Boolean, f9: Boolean, f10: Boolean, f11: Boolean, f12: Boolean, f13: Boolean, f14: Boolean,
      f15: Boolean) extends Wide
  case class Wide8(f0: Boolean, f1: Boolean, f2: Boolean, f3: Boolean, f4: Boolean, f5: Boolean, f6: Boolean,
      f7: Boolean, f8: Boolean, f9: Boolean, f10: Boolean, f11: Boolean, f12: Boolean, f13: Boolean, f14: Boolean,
      f15: Boolean) extends Wide
  case class Wide9(f0: Boolean, f1: Boolean, f2: Boolean, f3: Boolean, f4: Boolean, f5: Boolean, f6: Boolean,
      f7: Boolean, f8: Boolean, f9: Boolean, f10: Boolean, f11: Boolean, f12: Boolean, f13: Boolean, f14: Boolean,
      f15: Boolean) extends Wide
  case class Wide10(f0: Boolean, f1: Boolean, f2: Boolean, f3: Boolean, f4: Boolean, f5: Boolean, f6: Boolean,
      f7: Boolean, f8: Boolean, f9: Boolean, f10: Boolean, f11: Boolean, f12: Boolean, f13: Boolean, f14: Boolean,
      f15: Boolean) extends Wide
  case class Wide11(f0: Boolean, f1: Boolean, f2: Boolean, f3: Boolean, f4: Boolean, f5: Boolean, f6: Boolean,
      f7: Boolean, f8: Boolean, f9: Boolean, f10: Boolean, f11: Boolean, f12: Boolean, f13: Boolean, f14: Boolean,
      f15: Boolean) extends Wide
  case class Wide12(f0: Boolean, f1: Boolean, f2: Boolean, f3: Boolean, f4: Boolean, f5: Boolean, f6: Boolean,
      f7: Boolean, f8: Boolean, f9: Boolean, f10: Boolean, f11: Boolean, f12: Boolean, f13: Boolean, f14: Boolean,
      f15: Boolean) extends Wide
  case class Wide13(f0: Boolean, f1: Boolean, f2: Boolean, f3: Boolean, f4: Boolean, f5: Boolean, f6: Boolean,
      f7: Boolean, f8: Boolean, f9: Boolean, f10: Boolean, f11: Boolean, f12: Boolean, f13: Boolean, f14: Boolean,
      f15: Boolean) extends Wide
  case class Wide14(f0: Boolean, f1: Boolean, f2: Boolean, f3: Boolean, f4: Boolean, f5: Boolean, f6: Boolean,
      f7: Boolean, f8: Boolean, f9: Boolean, f10: Boolean, f11: Boolean, f12: Boolean, f13: Boolean, f14: Boolean,
      f15: Boolean) extends Wide
  case class Wide15(f0: Boolean, f1: Boolean, f2: Boolean, f3: Boolean, f4: Boolean, f5: Boolean, f6: Boolean,
      f7: Boolean, f8: Boolean, f9: Boolean, f10: Boolean, f11: Boolean, f12: Boolean, f13: Boolean, f14: Boolean,
      f15: Boolean) extends Wide
  case class Wide16(f0: Boolean, f1: Boolean, f2: Boolean, f3: Boolean, f4: Boolean, f5: Boolean, f6: Boolean,
      f7: Boolean, f8: Boolean, f9: Boolean, f10: Boolean, f11: Boolean, f12: Boolean, f13: Boolean, f14: Boolean,
      f15: Boolean) extends Wide
  case class Wide17(f0: Boolean, f1: Boolean, f2: Boolean, f3: Boolean, f4: Boolean, f5: Boolean, f6: Boolean,
      f7: Boolean, f8: Boolean, f9: Boolean, f10: Boolean, f11: Boolean, f12: Boolean, f13: Boolean, f14: Boolean,
      f15: Boolean) extends Wide
  case class Wide18(f0: Boolean, f1: Boolean, f2: Boolean, f3: Boolean, f4: Boolean, f5: Boolean, f6: Boolean,
      f7: Boolean, f8: Boolean, f9: Boolean, f10: Boolean, f11: Boolean, f12: Boolean, f13: Boolean, f14: Boolean,
      f15: Boolean) extends Wide
  case class Wide19(f0: Boolean, f1: Boolean, f2: Boolean, f3: Boolean, f4: Boolean, f5: Boolean, f6: Boolean,
      f7: Boolean, f8: Boolean, f9: Boolean, f10: Boolean, f11: Boolean, f12: Boolean, f13: Boolean, f14: Boolean,
      f15: Boolean) extends Wide
  case class Wide20(f0: Boolean, f1: Boolean, f2: Boolean, f3: Boolean, f4: Boolean, f5: Boolean, f6: Boolean,
      f7: Boolean, f8: Boolean, f9: Boolean, f10: Boolean, f11: Boolean, f12: Boolean, f13: Boolean, f14: Boolean,
      f15: Boolean) extends Wide
  case class Wide21(f0: Boolean, f1: Boolean, f2: Boolean, f3: Boolean, f4: Boolean, f5: Boolean, f6: Boolean,
      f7: Boolean, f8: Boolean, f9: Boolean, f10: Boolean, f11: Boolean, f12: Boolean, f13: Boolean, f14: Boolean,
      f15: Boolean) extends Wide
  case class Wide22(f0: Boolean, f1: Boolean, f2: Boolean, f3: Boolean, f4: Boolean, f5: Boolean, f6: Boolean,
      f7: Boolean, f8: Boolean, f9: Boolean, f10: Boolean, f11: Boolean, f12: Boolean, f13: Boolean, f14: Boolean,
      f15: Boolean) extends Wide
  case class Wide23(f0: Boolean, f1: Boolean, f2: Boolean, f3: Boolean, f4: Boolean, f5: Boolean, f6: Boolean,
      f7: Boolean, f8: Boolean, f9: Boolean, f10: Boolean, f11: Boolean, f12: Boolean, f13: Boolean, f14: Boolean,
      f15: Boolean) extends Wide
  case class Wide24(f0: Boolean, f1: Boolean, f2: Boolean, f3: Boolean, f4: Boolean, f5: Boolean, f6: Boolean,
      f7: Boolean, f8: Boolean, f9: Boolean, f10: Boolean, f11: Boolean, f12: Boolean, f13: Boolean, f14: Boolean,
      f15: Boolean) extends Wide
  case class Wide25(f0: Boolean, f1: Boolean, f2: Boolean, f3: Boolean, f4: Boolean, f5: Boolean, f6: Boolean,
      f7: Boolean, f8: Boolean, f9: Boolean, f10: Boolean, f11: Boolean, f12: Boolean, f13: Boolean, f14: Boolean,
      f15: Boolean) extends Wide
  case class Wide26(f0: Boolean, f1: Boolean, f2: Boolean, f3: Boolean, f4: Boolean, f5: Boolean, f6: Boolean,
      f7: Boolean, f8: Boolean, f9: Boolean, f10: Boolean, f11: Boolean, f12: Boolean, f13: Boolean, f14: Boolean,
      f15: Boolean) extends Wide
  case class Wide27(f0: Boolean, f1: Boolean, f2: Boolean, f3: Boolean, f4: Boolean, f5: Boolean, f6: Boolean,
      f7: Boolean, f8: Boolean, f9: Boolean, f10: Boolean, f11: Boolean, f12: Boolean, f13: Boolean, f14: Boolean,
      f15: Boolean) extends Wide
  case class Wide28(f0: Boolean, f1: Boolean, f2: Boolean, f3: Boolean, f4: Boolean, f5: Boolean, f6: Boolean,
      f7: Boolean, f8: Boolean, f9: Boolean, f10: Boolean, f11: Boolean, f12: Boolean, f13: Boolean, f14: Boolean,
      f15: Boolean) extends Wide
  case class Wide29(f0: Boolean, f1: Boolean, f2: Boolean, f3: Boolean, f4: Boolean, f5: Boolean, f6: Boolean,
      f7: Boolean, f8: Boolean, f9: Boolean, f10: Boolean, f11: Boolean, f12: Boolean, f13: Boolean, f14: Boolean,
      f15: Boolean) extends Wide
  case class Wide30(f0: Boolean, f1: Boolean, f2: Boolean, f3: Boolean, f4: Boolean, f5: Boolean, f6: Boolean,
      f7: Boolean, f8: Boolean, f9: Boolean, f10: Boolean, f11: Boolean, f12: Boolean, f13: Boolean, f14: Boolean,
      f15: Boolean) extends Wide
  case class Wide31(f0: Boolean, f1: Boolean, f2: Boolean, f3: Boolean, f4: Boolean, f5: Boolean, f6: Boolean,
      f7: Boolean, f8: Boolean, f9: Boolean, f10: Boolean, f11: Boolean, f12: Boolean, f13: Boolean, f14: Boolean,
      f15: Boolean) extends Wide
  case class Wide32(f0: Boolean, f1: Boolean, f2: Boolean, f3: Boolean, f4: Boolean, f5: Boolean, f6: Boolean,
      f7: Boolean, f8: Boolean, f9: Boolean, f10: Boolean, f11: Boolean, f12: Boolean, f13: Boolean, f14: Boolean,
      f15: Boolean) extends Wide
  case class Wide33(f0: Boolean, f1: Boolean, f2: Boolean, f3: Boolean, f4: Boolean, f5: Boolean, f6: Boolean,
      f7: Boolean, f8: Boolean, f9: Boolean, f10: Boolean, f11: Boolean, f12: Boolean, f13: Boolean, f14: Boolean,
      f15: Boolean) extends Wide
  case class Wide34(f0: Boolean, f1: Boolean, f2: Boolean, f3: Boolean, f4: Boolean, f5: Boolean, f6: Boolean,
      f7: Boolean, f8: Boolean, f9: Boolean, f10: Boolean, f11: Boolean, f12: Boolean, f13: Boolean, f14: Boolean,
      f15: Boolean) extends Wide
  case class Wide35(f0: Boolean, f1: Boolean, f2: Boolean, f3: Boolean, f4: Boolean, f5: Boolean, f6: Boolean,
      f7: Boolean, f8: Boolean, f9: Boolean, f10: Boolean, f11: Boolean, f12: Boolean, f13: Boolean, f14: Boolean,
      f15: Boolean) extends Wide
  case class Wide36(f0: Boolean, f1: Boolean, f2: Boolean, f3: Boolean, f4: Boolean, f5: Boolean, f6: Boolean,
      f7: Boolean, f8: Boolean, f9: Boolean, f10: Boolean, f11: Boolean, f12: Boolean, f13: Boolean, f14: Boolean,
      f15: Boolean) extends Wide
  case class Wide37(f0: Boolean, f1: Boolean, f2: Boolean, f3: Boolean, f4: Boolean, f5: Boolean, f6: Boolean,
      f7: Boolean, f8: Boolean, f9: Boolean, f10: Boolean, f11: Boolean, f12: Boolean, f13: Boolean, f14: Boolean,
      f15: Boolean) extends Wide
  case class Wide38(f0: Boolean, f1: Boolean, f2: Boolean, f3: Boolean, f4: Boolean, f5: Boolean, f6: Boolean,
      f7: Boolean, f8: Boolean, f9: Boolean, f10: Boolean, f11: Boolean, f12: Boolean, f13: Boolean, f14: Boolean,
      f15: Boolean) extends Wide
  case class Wide39(f0: Boolean, f1: Boolean, f2: Boolean, f3: Boolean, f4: Boolean, f5: Boolean, f6: Boolean,
      f7: Boolean, f8: Boolean, f9: Boolean, f10: Boolean, f11: Boolean, f12: Boolean, f13: Boolean, f14: Boolean,
      f15: Boolean) extends Wide
  case class Wide40(f0: Boolean, f1: Boolean, f2: Boolean, f3: Boolean, f4: Boolean, f5: Boolean, f6: Boolean,
      f7: Boolean, f8: Boolean, f9: Boolean, f10: Boolean, f11: Boolean, f12: Boolean, f13: Boolean, f14: Boolean,
      f15: Boolean) extends Wide
  case class Wide41(f0: Boolean, f1: Boolean, f2: Boolean, f3: Boolean, f4: Boolean, f5: Boolean, f6: Boolean,
      f7: Boolean, f8: Boolean, f9: Boolean, f10: Boolean, f11: Boolean, f12: Boolean, f13: Boolean, f14: Boolean,
      f15: Boolean) extends Wide
  case class Wide42(f0: Boolean, f1: Boolean, f2: Boolean, f3: Boolean, f4: Boolean, f5: Boolean, f6: Boolean,
      f7: Boolean, f8: Boolean, f9: Boolean, f10: Boolean, f11: Boolean, f12: Boolean, f13: Boolean, f14: Boolean,
      f15: Boolean) extends Wide
  case class Wide43(f0: Boolean, f1: Boolean, f2: Boolean, f3: Boolean, f4: Boolean, f5: Boolean, f6: Boolean,
      f7: Boolean, f8: Boolean, f9: Boolean, f10: Boolean, f11: Boolean, f12: Boolean, f13: Boolean, f14: Boolean,
      f15: Boolean) extends Wide
  case class Wide44(f0: Boolean, f1: Boolean, f2: Boolean, f3: Boolean, f4: Boolean, f5: Boolean, f6: Boolean,
      f7: Boolean, f8: Boolean, f9: Boolean, f10: Boolean, f11: Boolean, f12: Boolean, f13: Boolean, f14: Boolean,
      f15: Boolean) extends Wide
  case class Wide45(f0: Boolean, f1: Boolean, f2: Boolean, f3: Boolean, f4: Boolean, f5: Boolean, f6: Boolean,
      f7: Boolean, f8: Boolean, f9: Boolean, f10: Boolean, f11: Boolean, f12: Boolean, f13: Boolean, f14: Boolean,
      f15: Boolean) extends Wide
  case class Wide46(f0: Boolean, f1: Boolean, f2: Boolean, f3: Boolean, f4: Boolean, f5: Boolean, f6: Boolean,
      f7: Boolean, f8: Boolean, f9: Boolean, f10: Boolean, f11: Boolean, f12: Boolean, f13: Boolean, f14: Boolean,
      f15: Boolean) extends Wide
  case class Wide47(f0: Boolean, f1: Boolean, f2: Boolean, f3: Boolean, f4: Boolean, f5: Boolean, f6: Boolean,
      f7: Boolean, f8: Boolean, f9: Boolean, f10: Boolean, f11: Boolean, f12: Boolean, f13: Boolean, f14: Boolean,
      f15: Boolean) extends Wide
  case class Wide48(f0: Boolean, f1: Boolean, f2: Boolean, f3: Boolean, f4: Boolean, f5: Boolean, f6: Boolean,
      f7: Boolean, f8: Boolean, f9: Boolean, f10: Boolean, f11: Boolean, f12: Boolean, f13: Boolean, f14: Boolean,
      f15: Boolean) extends Wide
  case class Wide49(f0: Boolean, f1: Boolean, f2: Boolean, f3: Boolean, f4: Boolean, f5: Boolean, f6: Boolean,
      f7: Boolean, f8: Boolean, f9: Boolean, f10: Boolean, f11: Boolean, f12: Boolean, f13: Boolean, f14: Boolean,
      f15: Boolean) extends Wide
  case class Wide50(f0: Boolean, f1: Boolean, f2: Boolean, f3: Boolean, f4: Boolean, f5: Boolean, f6: Boolean,
      f7: Boolean, f8: Boolean, f9: Boolean, f10: Boolean, f11: Boolean, f12: Boolean, f13: Boolean, f14: Boolean,
      f15: Boolean) extends Wide
  case class Wide51(f0: Boolean, f1: Boolean, f2: Boolean, f3: Boolean, f4: Boolean, f5: Boolean, f6: Boolean,
      f7: Boolean, f8: Boolean, f9: Boolean, f10: Boolean, f11: Boolean, f12: Boolean, f13: Boolean, f14: Boolean,
      f15: Boolean) extends Wide
  case class Wide52(f0: Boolean, f1: Boolean, f2: Boolean, f3: Boolean, f4: Boolean, f5: Boolean, f6: Boolean,
      f7: Boolean, f8: Boolean, f9: Boolean, f10: Boolean, f11: Boolean, f12: Boolean, f13: Boolean, f14: Boolean,
      f15: Boolean) extends Wide
  case class Wide53(f0: Boolean, f1: Boolean, f2: Boolean, f3: Boolean, f4: Boolean, f5: Boolean, f6: Boolean,
      f7: Boolean, f8: Boolean, f9: Boolean, f10: Boolean, f11: Boolean, f12: Boolean, f13: Boolean, f14: Boolean,
      f15: Boolean) extends Wide
  case class Wide54(f0: Boolean, f1: Boolean, f2: Boolean, f3: Boolean, f4: Boolean, f5: Boolean, f6: Boolean,
      f7: Boolean, f8: Boolean, f9: Boolean, f10: Boolean, f11: Boolean, f12: Boolean, f13: Boolean, f14: Boolean,
      f15: Boolean) extends Wide
  case class Wide55(f0: Boolean, f1: Boolean, f2: Boolean, f3: Boolean, f4: Boolean, f5: Boolean, f6: Boolean,
      f7: Boolean, f8: Boolean, f9: Boolean, f10: Boolean, f11: Boolean, f12: Boolean, f13: Boolean, f14: Boolean,
      f15: Boolean) extends Wide
  case class Wide56(f0: Boolean, f1: Boolean, f2: Boolean, f3: Boolean, f4: Boolean, f5: Boolean, f6: Boolean,
      f7: Boolean, f8: Boolean, f9: Boolean, f10: Boolean, f11: Boolean, f12: Boolean, f13: Boolean, f14: Boolean,
      f15: Boolean) extends Wide
  case class Wide57(f0: Boolean, f1: Boolean, f2: Boolean, f3: Boolean, f4: Boolean, f5: Boolean, f6: Boolean,
      f7: Boolean, f8: Boolean, f9: Boolean, f10: Boolean, f11: Boolean, f12: Boolean, f13: Boolean, f14: Boolean,
      f15: Boolean) extends Wide
  case class Wide58(f0: Boolean, f1: Boolean, f2: Boolean, f3: Boolean, f4: Boolean, f5: Boolean, f6: Boolean,
      f7: Boolean, f8: Boolean, f9: Boolean, f10: Boolean, f11: Boolean, f12: Boolean, f13: Boolean, f14: Boolean,
      f15: Boolean) extends Wide
  case class Wide59(f0: Boolean, f1: Boolean, f2: Boolean, f3: Boolean, f4: Boolean, f5: Boolean, f6: Boolean,
      f7: Boolean, f8: Boolean, f9: Boolean, f10: Boolean, f11: Boolean, f12: Boolean, f13: Boolean, f14: Boolean,
      f15: Boolean) extends Wide
  case class Wide60(f0: Boolean, f1: Boolean, f2: Boolean, f3: Boolean, f4: Boolean, f5: Boolean, f6: Boolean,
      f7: Boolean, f8: Boolean, f9: Boolean, f10: Boolean, f11: Boolean, f12: Boolean, f13: Boolean, f14: Boolean,
      f15: Boolean) extends Wide
  case class Wide61(f0: Boolean, f1: Boolean, f2: Boolean, f3: Boolean, f4: Boolean, f5: Boolean, f6: Boolean,
      f7: Boolean, f8: Boolean, f9: Boolean, f10: Boolean, f11: Boolean, f12: Boolean, f13: Boolean, f14: Boolean,
      f15: Boolean) extends Wide
  case class Wide62(f0: Boolean, f1: Boolean, f2: Boolean, f3: Boolean, f4: Boolean, f5: Boolean, f6: Boolean,
      f7: Boolean, f8: Boolean, f9: Boolean, f10: Boolean, f11: Boolean, f12: Boolean, f13: Boolean, f14: Boolean,
      f15: Boolean) extends Wide
  case class Wide63(f0: Boolean, f1: Boolean, f2: Boolean, f3: Boolean, f4: Boolean, f5: Boolean, f6: Boolean,
      f7: Boolean, f8: Boolean, f9: Boolean, f10: Boolean, f11: Boolean, f12: Boolean, f13: Boolean, f14: Boolean,
      f15: Boolean) extends Wide

  def kinds(pair: Pair, pairs: Pairs, row: Row, grid: Grid, wide: Wide): Boolean = true
}
