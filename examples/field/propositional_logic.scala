// Formulas of propositional logic: without implications, in negation normal form, and their value.
// The form is that of PropositionalLogic of the Leon verifier (Suter, Köksal, Kuncak, "Satisfiability modulo recursive
// programs", 2011); the value is that of John Harrison, "Handbook of Practical Logic and Automated Reasoning", 2009.
import leon.lang._

object PropositionalLogic {
  sealed abstract class Formula
  case class And(lhs: Formula, rhs: Formula) extends Formula
  case class Or(lhs: Formula, rhs: Formula) extends Formula
  case class Implies(lhs: Formula, rhs: Formula) extends Formula
  case class Not(f: Formula) extends Formula
  case class Literal(id: Int) extends Formula

  // the literals that are true
  sealed abstract class Env
  case class True(id: Int, rest: Env) extends Env
  case class NoMore() extends Env

  def isTrue(id: Int, env: Env): Boolean = {
    decreases(env)
    env match {
      case True(i, rest) => i == id || isTrue(id, rest)
      case NoMore() => false
    }
  }

  def eval(f: Formula, env: Env): Boolean = {
    decreases(f)
    f match {
      case And(l, r) => eval(l, env) && eval(r, env)
      case Or(l, r) => eval(l, env) || eval(r, env)
      case Implies(l, r) => !eval(l, env) || eval(r, env)
      case Not(g) => !eval(g, env)
      case Literal(i) => isTrue(i, env)
    }
  }

  def isSimplified(f: Formula): Boolean = {
    decreases(f)
    f match {
      case And(l, r) => isSimplified(l) && isSimplified(r)
      case Or(l, r) => isSimplified(l) && isSimplified(r)
      case Implies(_, _) => false
      case Not(g) => isSimplified(g)
      case Literal(_) => true
    }
  }

  def simplify(f: Formula): Formula = {
    decreases(f)
    f match {
      case And(l, r) => And(simplify(l), simplify(r))
      case Or(l, r) => Or(simplify(l), simplify(r))
      case Implies(l, r) => Or(Not(simplify(l)), simplify(r))
      case Not(g) => Not(simplify(g))
      case Literal(_) => f
    }
  } ensuring (res => isSimplified(res))

  def isNNF(f: Formula): Boolean = {
    decreases(f)
    f match {
      case And(l, r) => isNNF(l) && isNNF(r)
      case Or(l, r) => isNNF(l) && isNNF(r)
      case Implies(l, r) => isNNF(l) && isNNF(r)
      case Not(Literal(_)) => true
      case Not(_) => false
      case Literal(_) => true
    }
  }

  def nnf(f: Formula): Formula = {
    decreases(f)
    f match {
      case And(l, r) => And(nnf(l), nnf(r))
      case Or(l, r) => Or(nnf(l), nnf(r))
      case Implies(l, r) => Implies(nnf(l), nnf(r))
      case Not(g) => nnfNot(g)
      case Literal(_) => f
    }
  } ensuring (res => isNNF(res))

  // the normal form of Not(f)
  def nnfNot(f: Formula): Formula = {
    decreases(f)
    f match {
      case And(l, r) => Or(nnfNot(l), nnfNot(r))
      case Or(l, r) => And(nnfNot(l), nnfNot(r))
      case Implies(l, r) => And(nnf(l), nnfNot(r))
      case Not(g) => nnf(g)
      case Literal(_) => Not(f)
    }
  } ensuring (res => isNNF(res))

  def nnfIsStable(f: Formula): Boolean = {
    require(isNNF(f))
    decreases(f)
    f match {
      case And(l, r) => nnfIsStable(l) && nnfIsStable(r) && nnf(f) == f
      case Or(l, r) => nnfIsStable(l) && nnfIsStable(r) && nnf(f) == f
      case Implies(l, r) => nnfIsStable(l) && nnfIsStable(r) && nnf(f) == f
      case _ => nnf(f) == f
    }
  }.holds

  def nnfTwice(f: Formula): Boolean = {
    nnfIsStable(nnf(f)) && nnf(nnf(f)) == nnf(f)
  }.holds

  def simplifyIsStable(f: Formula): Boolean = {
    require(isSimplified(f))
    decreases(f)
    val part = f match {
      case And(l, r) => simplifyIsStable(l) && simplifyIsStable(r)
      case Or(l, r) => simplifyIsStable(l) && simplifyIsStable(r)
      case Not(g) => simplifyIsStable(g)
      case _ => true
    }
    part && simplify(f) == f
  }.holds

  def simplifyKeepsValue(f: Formula, env: Env): Boolean = {
    decreases(f)
    val part = f match {
      case And(l, r) => simplifyKeepsValue(l, env) && simplifyKeepsValue(r, env)
      case Or(l, r) => simplifyKeepsValue(l, env) && simplifyKeepsValue(r, env)
      case Implies(l, r) => simplifyKeepsValue(l, env) && simplifyKeepsValue(r, env)
      case Not(g) => simplifyKeepsValue(g, env)
      case Literal(_) => true
    }
    part && eval(simplify(f), env) == eval(f, env)
  }.holds

  def nnfKeepsValue(f: Formula, env: Env): Boolean = {
    decreases(f)
    val part = f match {
      case And(l, r) => nnfKeepsValue(l, env) && nnfKeepsValue(r, env)
      case Or(l, r) => nnfKeepsValue(l, env) && nnfKeepsValue(r, env)
      case Implies(l, r) => nnfKeepsValue(l, env) && nnfKeepsValue(r, env)
      case Not(g) => nnfKeepsValue(g, env)
      case Literal(_) => true
    }
    part && eval(nnf(f), env) == eval(f, env) && eval(nnfNot(f), env) == !eval(f, env)
  }.holds
}
