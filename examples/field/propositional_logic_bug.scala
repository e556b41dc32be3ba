// False claims on formulas of propositional logic: the three last ones.
// The form is that of PropositionalLogic of the Leon verifier (Suter, Köksal, Kuncak, "Satisfiability modulo recursive
// programs", 2011), whose `wrongCommutative` and `simplifyBreaksNNF` are these.
import leon.lang._

object PropositionalLogic {
  sealed abstract class Formula
  case class And(lhs: Formula, rhs: Formula) extends Formula
  case class Or(lhs: Formula, rhs: Formula) extends Formula
  case class Implies(lhs: Formula, rhs: Formula) extends Formula
  case class Not(f: Formula) extends Formula
  case class Literal(id: Int) extends Formula

  def isSimplified(f: Formula): Boolean = {
    decreases(f)
    f match {
      case And(l, r) => isSimplified(l) && isSimplified(r)
      case Or(l, r) => isSimplified(l) && isSimplified(r)
      case Implies(_, _) => false
      case Not(g) => isSimplified(g)
      case Literal(_) => true
    }
  }

  def simplify(f: Formula): Formula = {
    decreases(f)
    f match {
      case And(l, r) => And(simplify(l), simplify(r))
      case Or(l, r) => Or(simplify(l), simplify(r))
      case Implies(l, r) => Or(Not(simplify(l)), simplify(r))
      case Not(g) => Not(simplify(g))
      case Literal(_) => f
    }
  } ensuring (res => isSimplified(res))

  def isNNF(f: Formula): Boolean = {
    decreases(f)
    f match {
      case And(l, r) => isNNF(l) && isNNF(r)
      case Or(l, r) => isNNF(l) && isNNF(r)
      case Implies(l, r) => isNNF(l) && isNNF(r)
      case Not(Literal(_)) => true
      case Not(_) => false
      case Literal(_) => true
    }
  }

  def nnf(f: Formula): Formula = {
    decreases(f)
    f match {
      case And(l, r) => And(nnf(l), nnf(r))
      case Or(l, r) => Or(nnf(l), nnf(r))
      case Implies(l, r) => Implies(nnf(l), nnf(r))
      case Not(g) => nnfNot(g)
      case Literal(_) => f
    }
  } ensuring (res => isNNF(res))

  // the normal form of Not(f)
  def nnfNot(f: Formula): Formula = {
    decreases(f)
    f match {
      case And(l, r) => Or(nnfNot(l), nnfNot(r))
      case Or(l, r) => And(nnfNot(l), nnfNot(r))
      case Implies(l, r) => And(nnf(l), nnfNot(r))
      case Not(g) => nnf(g)
      case Literal(_) => Not(f)
    }
  } ensuring (res => isNNF(res))

  // bug: the order of the two passes counts
  def wrongCommutative(f: Formula): Boolean = {
    nnf(simplify(f)) == simplify(nnf(f))
  }.holds

  // bug: removing implications brings negations
  def simplifyBreaksNNF(f: Formula): Boolean = {
    require(isNNF(f))
    isNNF(simplify(f))
  }.holds

  // bug: the normal form keeps the order of the operands
  def andCommutes(a: Formula, b: Formula): Boolean = {
    nnf(And(a, b)) == nnf(And(b, a))
  }.holds
}
