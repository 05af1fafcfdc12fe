//! Rows and truth, written from the rules: whether an expression is TRUE, FALSE or UNKNOWN on a row.

use crate::plan::{BAD_ROW, Comparison, Kind, Literal, NO_SUCH, Nary, Node, Plan, UNTYPED, Unary};

#[derive(Debug, Clone, Copy, PartialEq, Eq)]
pub enum Truth {
    False,
    Unknown,
    True,
}

/// The truth of an expression, or the number of a refusal: 8, then 9, then 10. The row gives a value
/// to every column of the plan: a NULL of any kind is NULL, a column past the row's end is NULL, and
/// values past the plan's columns are not looked at.
pub fn evaluate(plan: &Plan, expr: u16, row: &[Literal]) -> Result<Truth, u8> {
    let expr = usize::from(expr);
    if expr >= plan.exprs.len() {
        return Err(NO_SUCH);
    }
    if !typed(plan, expr) {
        return Err(UNTYPED);
    }
    let row: Vec<Literal> = (0..plan.columns.len())
        .map(|column| row.get(column).copied().unwrap_or(Literal::Null(Kind::Boolean)))
        .collect();
    if !row.iter().zip(&plan.columns).all(|(value, column)| is_of(*value, column.kind)) {
        return Err(BAD_ROW);
    }
    // Operands are earlier than what they stand in, so one pass in handle order gives every value.
    let mut values: Vec<Literal> = Vec::with_capacity(expr + 1);
    for node in &plan.exprs[..=expr] {
        let value = value_of(node, &values, &row);
        values.push(value);
    }
    Ok(truth(values[expr]))
}

fn is_of(value: Literal, kind: Kind) -> bool {
    matches!(value, Literal::Null(_)) || value.kind() == kind
}

fn kind_of(plan: &Plan, expr: u16) -> Kind {
    match &plan.exprs[usize::from(expr)] {
        Node::Literal(literal) => literal.kind(),
        Node::Column(column) => plan.columns[usize::from(*column)].kind,
        _ => Kind::Boolean,
    }
}

/// The nodes that an expression reaches, itself among them.
pub fn reached(plan: &Plan, expr: usize) -> Vec<bool> {
    let mut reached = vec![false; expr + 1];
    reached[expr] = true;
    for number in (0..=expr).rev() {
        if reached[number] {
            for operand in operands(&plan.exprs[number]) {
                reached[usize::from(operand)] = true;
            }
        }
    }
    reached
}

pub fn operands(node: &Node) -> Vec<u16> {
    match node {
        Node::Literal(_) | Node::Column(_) => Vec::new(),
        Node::Unary(_, inner) => vec![*inner],
        Node::Comparison(_, left, right) => vec![*left, *right],
        Node::Nary(_, operands) => operands.clone(),
    }
}

fn typed(plan: &Plan, expr: usize) -> bool {
    let boolean = |handle: u16| kind_of(plan, handle) == Kind::Boolean;
    let node_typed = |node: &Node| match node {
        Node::Unary(Unary::Not, inner) => boolean(*inner),
        Node::Unary(Unary::Negate, _) => false,
        Node::Nary(_, operands) => operands.iter().all(|operand| boolean(*operand)),
        _ => true,
    };
    let reached = reached(plan, expr);
    boolean(expr as u16)
        && reached.iter().zip(&plan.exprs).all(|(reached, node)| !*reached || node_typed(node))
}

fn truth(value: Literal) -> Truth {
    match value {
        Literal::Boolean(true) => Truth::True,
        Literal::Boolean(false) => Truth::False,
        _ => Truth::Unknown,
    }
}

/// UNKNOWN is the Boolean NULL.
fn value(truth: Truth) -> Literal {
    match truth {
        Truth::True => Literal::Boolean(true),
        Truth::False => Literal::Boolean(false),
        Truth::Unknown => Literal::Null(Kind::Boolean),
    }
}

fn known(holds: bool) -> Truth {
    if holds { Truth::True } else { Truth::False }
}

/// The value of a node over the values of the nodes before it. Nodes that a typed expression does
/// not reach get some value too, which nobody reads.
fn value_of(node: &Node, values: &[Literal], row: &[Literal]) -> Literal {
    let at = |handle: &u16| values[usize::from(*handle)];
    match node {
        Node::Literal(literal) => *literal,
        Node::Column(column) => row[usize::from(*column)],
        Node::Unary(Unary::Not, inner) => value(not(truth(at(inner)))),
        Node::Unary(Unary::IsNull, inner) => value(known(is_null(at(inner)))),
        Node::Unary(Unary::IsNotNull, inner) => value(known(!is_null(at(inner)))),
        Node::Unary(Unary::Negate, _) => Literal::Null(Kind::Boolean),
        Node::Comparison(op, left, right) => value(compare(*op, at(left), at(right))),
        Node::Nary(Nary::And, operands) => {
            value(operands.iter().fold(Truth::True, |so_far, e| and(so_far, truth(at(e)))))
        }
        Node::Nary(Nary::Or, operands) => {
            value(operands.iter().fold(Truth::False, |so_far, e| or(so_far, truth(at(e)))))
        }
    }
}

fn is_null(value: Literal) -> bool {
    matches!(value, Literal::Null(_))
}

pub fn not(truth: Truth) -> Truth {
    match truth {
        Truth::True => Truth::False,
        Truth::Unknown => Truth::Unknown,
        Truth::False => Truth::True,
    }
}

pub fn and(left: Truth, right: Truth) -> Truth {
    match (left, right) {
        (Truth::False, _) | (_, Truth::False) => Truth::False,
        (Truth::True, Truth::True) => Truth::True,
        _ => Truth::Unknown,
    }
}

pub fn or(left: Truth, right: Truth) -> Truth {
    match (left, right) {
        (Truth::True, _) | (_, Truth::True) => Truth::True,
        (Truth::False, Truth::False) => Truth::False,
        _ => Truth::Unknown,
    }
}

pub fn compare(op: Comparison, left: Literal, right: Literal) -> Truth {
    let null_safe = op == Comparison::IsNotDistinctFrom;
    match (is_null(left), is_null(right)) {
        (true, true) if null_safe => return Truth::True,
        (true, false) | (false, true) if null_safe => return Truth::False,
        (false, false) => {}
        _ => return Truth::Unknown,
    }
    if left.kind() != right.kind() {
        return if null_safe { Truth::False } else { Truth::Unknown };
    }
    let order = match (left, right) {
        (Literal::Boolean(a), Literal::Boolean(b)) => Some(a.cmp(&b)),
        (Literal::Int32(a), Literal::Int32(b)) => Some(a.cmp(&b)),
        (Literal::Int64(a), Literal::Int64(b)) => Some(a.cmp(&b)),
        (Literal::Date32(a), Literal::Date32(b)) => Some(a.cmp(&b)),
        (Literal::Float64(a), Literal::Float64(b)) => {
            f64::from_bits(a).partial_cmp(&f64::from_bits(b))
        }
        _ => unreachable!("the kinds are the same"),
    };
    // Only a NaN has no order, and then only NotEq is TRUE.
    let Some(order) = order else {
        return known(op == Comparison::NotEq);
    };
    known(match op {
        Comparison::Eq | Comparison::IsNotDistinctFrom => order.is_eq(),
        Comparison::NotEq => order.is_ne(),
        Comparison::Lt => order.is_lt(),
        Comparison::LtEq => order.is_le(),
        Comparison::Gt => order.is_gt(),
        Comparison::GtEq => order.is_ge(),
    })
}
