// Bug: a transfer takes its fee from the account without asking whether there is enough.
// pureproof examples/bugs/transfer.scala
// transfer: invalid, precondition at 1:25:10, ..
object Accounts {
  case class Account(owner: Int, balance: Int)
  case class Pair(from: Account, to: Account)

  def isOpen(a: Account): Boolean = 0 <= a.balance && a.balance <= 1000000

  def withdraw(a: Account, amount: Int): Account = {
    require(isOpen(a) && 0 <= amount && amount <= a.balance)
    Account(a.owner, a.balance - amount)
  } ensuring (res => isOpen(res))

  def deposit(a: Account, amount: Int): Account = {
    require(isOpen(a) && 0 <= amount && amount <= 1000000 - a.balance)
    Account(a.owner, a.balance + amount)
  } ensuring (res => isOpen(res) && res.owner == a.owner)

  def fee(amount: Int): Int = if (amount > 1000) 5 else 1

  def transfer(p: Pair, amount: Int): Pair = {
    require(isOpen(p.from) && isOpen(p.to) && 0 <= amount && amount <= p.from.balance)
    require(p.to.balance <= 1000000 - amount)
    Pair(withdraw(p.from, amount + fee(amount)), deposit(p.to, amount))
  } ensuring (res => res.to.owner == p.to.owner)
}
