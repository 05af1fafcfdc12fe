//! A plan as optd's `QueryContext`, and back. Fields that the plan file lacks are filled in here.

use optd_core::door::{self, DataType};
use optd_core::{
    AggregateExpr, Aggregation, BinaryOp, ColumnData, ConstScan, CrossProduct, ExprData, Join,
    JoinType as OptdJoin, Limit, Map, NaryOp, NullOrdering, OperatorData, Output, Projection,
    QueryContext, Rename, ScalarValue, Scan, Selection, Sort, SortDirection, SortKey,
    TableFunction, TableFunctionDef, TableRef, UnaryOp,
};

use crate::plan::{Column, Comparison, JoinType, Kind, Literal, Nary, Node, Operator, Plan, Unary};

pub fn build(plan: &Plan) -> QueryContext {
    let mut ctx = QueryContext::new();
    for (number, column) in plan.columns.iter().enumerate() {
        let handle = ColumnData::new(padded(column.name), data_type(column.kind)).add(&mut ctx);
        assert_eq!(door::column_number(handle), number);
    }
    for (number, node) in plan.exprs.iter().enumerate() {
        let handle = expr_data(node).add(&mut ctx);
        assert_eq!(door::expr_number(handle), number);
    }
    for (number, operator) in plan.operators.iter().enumerate() {
        let handle = operator_data(operator).add(&mut ctx);
        assert_eq!(door::operator_number(handle), number);
    }
    ctx
}

/// Leading zeros make the order of these strings the order of the numbers.
fn padded(number: u16) -> String {
    format!("{number:05}")
}

fn data_type(kind: Kind) -> DataType {
    match kind {
        Kind::Boolean => DataType::Boolean,
        Kind::Int32 => DataType::Int32,
        Kind::Int64 => DataType::Int64,
        Kind::Float64 => DataType::Float64,
        Kind::Date32 => DataType::Date32,
    }
}

fn scalar(literal: Literal) -> ScalarValue {
    match literal {
        Literal::Null(kind) => ScalarValue::Null(data_type(kind)),
        Literal::Boolean(value) => ScalarValue::Boolean(value),
        Literal::Int32(value) => ScalarValue::Int32(value),
        Literal::Int64(value) => ScalarValue::Int64(value),
        Literal::Float64(bits) => ScalarValue::Float64(f64::from_bits(bits)),
        Literal::Date32(value) => ScalarValue::Date32(value),
    }
}

fn column(number: u16) -> optd_core::Column {
    door::column(number.into())
}

fn columns(numbers: &[u16]) -> Vec<optd_core::Column> {
    numbers.iter().map(|number| column(*number)).collect()
}

fn expr(number: u16) -> optd_core::Expr {
    door::expr(number.into())
}

fn exprs(numbers: &[u16]) -> Vec<optd_core::Expr> {
    numbers.iter().map(|number| expr(*number)).collect()
}

fn input(number: u16) -> optd_core::Operator {
    door::operator(number.into())
}

fn expr_data(node: &Node) -> ExprData {
    match node {
        Node::Literal(literal) => ExprData::Literal(scalar(*literal)),
        Node::Column(number) => ExprData::ColumnRef(column(*number)),
        Node::Unary(op, inner) => ExprData::Unary {
            op: match op {
                Unary::Not => UnaryOp::Not,
                Unary::IsNull => UnaryOp::IsNull,
                Unary::IsNotNull => UnaryOp::IsNotNull,
                Unary::Negate => UnaryOp::Negate,
            },
            expr: expr(*inner),
        },
        Node::Comparison(op, left, right) => ExprData::Binary {
            op: match op {
                Comparison::Eq => BinaryOp::Eq,
                Comparison::NotEq => BinaryOp::NotEq,
                Comparison::Lt => BinaryOp::Lt,
                Comparison::LtEq => BinaryOp::LtEq,
                Comparison::Gt => BinaryOp::Gt,
                Comparison::GtEq => BinaryOp::GtEq,
                Comparison::IsNotDistinctFrom => BinaryOp::IsNotDistinctFrom,
            },
            left: expr(*left),
            right: expr(*right),
        },
        Node::Nary(op, operands) => ExprData::Nary {
            op: match op {
                Nary::And => NaryOp::And,
                Nary::Or => NaryOp::Or,
            },
            exprs: exprs(operands),
        },
    }
}

fn operator_data(operator: &Operator) -> OperatorData {
    match operator {
        Operator::Scan { table, columns: list } => {
            OperatorData::Scan(Scan { table: TableRef(padded(*table)), columns: columns(list) })
        }
        Operator::ConstScan { columns: list } => {
            OperatorData::ConstScan(ConstScan { columns: columns(list), rows: Vec::new() })
        }
        Operator::TableFunction { columns: list } => OperatorData::TableFunction(TableFunction {
            function: TableFunctionDef::Values,
            args: Vec::new(),
            columns: columns(list),
        }),
        Operator::Selection { predicate, input: i } => {
            OperatorData::Selection(Selection { predicate: expr(*predicate), input: input(*i) })
        }
        Operator::Projection { input: i, columns: list } => {
            OperatorData::Projection(Projection { columns: columns(list), input: input(*i) })
        }
        Operator::Rename { input: i, pairs } => OperatorData::Rename(Rename {
            alias: String::new(),
            defs: pairs.iter().map(|(r, o)| (column(*r), column(*o))).collect(),
            input: input(*i),
        }),
        Operator::Map { input: i, computations } => OperatorData::Map(Map {
            computations: computations.iter().map(|(c, e)| (column(*c), expr(*e))).collect(),
            input: input(*i),
        }),
        Operator::Aggregation { input: i, keys, aggregates } => {
            OperatorData::Aggregation(Aggregation {
                keys: exprs(keys),
                aggregates: aggregates
                    .iter()
                    .map(|c| (column(*c), AggregateExpr::CountStar))
                    .collect(),
                input: input(*i),
            })
        }
        Operator::Sort { input: i, keys } => OperatorData::Sort(Sort {
            keys: exprs(keys).into_iter().map(sort_key).collect(),
            input: input(*i),
        }),
        Operator::Limit { input: i } => {
            OperatorData::Limit(Limit { fetch: None, offset: 0, input: input(*i) })
        }
        Operator::Output { input: i } => OperatorData::Output(Output { input: input(*i) }),
        Operator::CrossProduct { outer, inner } => {
            OperatorData::CrossProduct(CrossProduct { outer: input(*outer), inner: input(*inner) })
        }
        Operator::Join { join_type, on, outer, inner } => OperatorData::Join(Join {
            join_type: optd_join(*join_type),
            on: expr(*on),
            outer: input(*outer),
            inner: input(*inner),
        }),
        Operator::LeftMark { on, outer, inner, marker } => OperatorData::Join(Join {
            join_type: OptdJoin::LeftMark { marker: column(*marker), nullable: true },
            on: expr(*on),
            outer: input(*outer),
            inner: input(*inner),
        }),
    }
}

fn sort_key(expr: optd_core::Expr) -> SortKey {
    SortKey { expr, direction: SortDirection::Asc, nulls: NullOrdering::Last }
}

fn optd_join(join_type: JoinType) -> OptdJoin {
    match join_type {
        JoinType::Inner => OptdJoin::Inner,
        JoinType::LeftSemi => OptdJoin::LeftSemi,
        JoinType::LeftAnti => OptdJoin::LeftAnti,
        JoinType::LeftOuter => OptdJoin::LeftOuter,
        JoinType::Single => OptdJoin::Single,
        JoinType::RightOuter => OptdJoin::RightOuter,
        JoinType::FullOuter => OptdJoin::FullOuter,
    }
}

/// Every node of a context as a plan, whether or not it keeps the rules' sizes.
pub fn plan_of(ctx: &QueryContext) -> Plan {
    Plan {
        columns: (0..ctx.column_count())
            .map(|number| {
                let column = ctx.column(door::column(number));
                Column { name: parsed(&column.name), kind: kind_of(&column.ty) }
            })
            .collect(),
        exprs: (0..ctx.expr_count()).map(|number| node_of(ctx.expr(door::expr(number)))).collect(),
        operators: (0..ctx.operator_count())
            .map(|number| operator_of(ctx.operator(door::operator(number))))
            .collect(),
    }
}

fn parsed(padded: &str) -> u16 {
    padded.parse().expect("names and tables are written by `padded`")
}

fn kind_of(ty: &DataType) -> Kind {
    match ty {
        DataType::Boolean => Kind::Boolean,
        DataType::Int32 => Kind::Int32,
        DataType::Int64 => Kind::Int64,
        DataType::Float64 => Kind::Float64,
        DataType::Date32 => Kind::Date32,
        other => unreachable!("{other:?} is in no plan file"),
    }
}

pub fn literal_of(scalar: &ScalarValue) -> Literal {
    match scalar {
        ScalarValue::Null(ty) => Literal::Null(kind_of(ty)),
        ScalarValue::Boolean(value) => Literal::Boolean(*value),
        ScalarValue::Int32(value) => Literal::Int32(*value),
        ScalarValue::Int64(value) => Literal::Int64(*value),
        ScalarValue::Float64(value) => Literal::Float64(value.to_bits()),
        ScalarValue::Date32(value) => Literal::Date32(*value),
        other => unreachable!("{other:?} is in no plan file"),
    }
}

fn column_of(column: &optd_core::Column) -> u16 {
    door::column_number(*column) as u16
}

fn columns_of(list: &[optd_core::Column]) -> Vec<u16> {
    list.iter().map(column_of).collect()
}

fn expr_of(expr: &optd_core::Expr) -> u16 {
    door::expr_number(*expr) as u16
}

fn exprs_of(list: &[optd_core::Expr]) -> Vec<u16> {
    list.iter().map(expr_of).collect()
}

fn input_of(operator: optd_core::Operator) -> u16 {
    door::operator_number(operator) as u16
}

fn node_of(data: &ExprData) -> Node {
    match data {
        ExprData::Literal(scalar) => Node::Literal(literal_of(scalar)),
        ExprData::ColumnRef(column) => Node::Column(column_of(column)),
        ExprData::Unary { op, expr } => Node::Unary(
            match op {
                UnaryOp::Not => Unary::Not,
                UnaryOp::IsNull => Unary::IsNull,
                UnaryOp::IsNotNull => Unary::IsNotNull,
                UnaryOp::Negate => Unary::Negate,
            },
            expr_of(expr),
        ),
        ExprData::Binary { op, left, right } => Node::Comparison(
            match op {
                BinaryOp::Eq => Comparison::Eq,
                BinaryOp::NotEq => Comparison::NotEq,
                BinaryOp::Lt => Comparison::Lt,
                BinaryOp::LtEq => Comparison::LtEq,
                BinaryOp::Gt => Comparison::Gt,
                BinaryOp::GtEq => Comparison::GtEq,
                BinaryOp::IsNotDistinctFrom => Comparison::IsNotDistinctFrom,
                other => unreachable!("{other:?} is in no plan file"),
            },
            expr_of(left),
            expr_of(right),
        ),
        ExprData::Nary { op, exprs } => Node::Nary(
            match op {
                NaryOp::And => Nary::And,
                NaryOp::Or => Nary::Or,
            },
            exprs_of(exprs),
        ),
        other => unreachable!("{other:?} is in no plan file"),
    }
}

fn operator_of(data: &OperatorData) -> Operator {
    match data {
        OperatorData::Scan(scan) => {
            Operator::Scan { table: parsed(&scan.table.0), columns: columns_of(&scan.columns) }
        }
        OperatorData::ConstScan(scan) => Operator::ConstScan { columns: columns_of(&scan.columns) },
        OperatorData::TableFunction(function) => {
            Operator::TableFunction { columns: columns_of(&function.columns) }
        }
        OperatorData::Selection(selection) => Operator::Selection {
            predicate: expr_of(&selection.predicate),
            input: input_of(selection.input),
        },
        OperatorData::Projection(projection) => Operator::Projection {
            input: input_of(projection.input),
            columns: columns_of(&projection.columns),
        },
        OperatorData::Rename(rename) => Operator::Rename {
            input: input_of(rename.input),
            pairs: rename.defs.iter().map(|(r, o)| (column_of(r), column_of(o))).collect(),
        },
        OperatorData::Map(map) => Operator::Map {
            input: input_of(map.input),
            computations: map
                .computations
                .iter()
                .map(|(c, e)| (column_of(c), expr_of(e)))
                .collect(),
        },
        OperatorData::Aggregation(aggregation) => Operator::Aggregation {
            input: input_of(aggregation.input),
            keys: exprs_of(&aggregation.keys),
            aggregates: aggregation.aggregates.iter().map(|(c, _)| column_of(c)).collect(),
        },
        OperatorData::Sort(sort) => Operator::Sort {
            input: input_of(sort.input),
            keys: sort.keys.iter().map(|key| expr_of(&key.expr)).collect(),
        },
        OperatorData::Limit(limit) => Operator::Limit { input: input_of(limit.input) },
        OperatorData::Output(output) => Operator::Output { input: input_of(output.input) },
        OperatorData::CrossProduct(product) => Operator::CrossProduct {
            outer: input_of(product.outer),
            inner: input_of(product.inner),
        },
        OperatorData::Join(join) => join_of(join),
    }
}

fn join_of(join: &Join) -> Operator {
    let on = expr_of(&join.on);
    let outer = input_of(join.outer);
    let inner = input_of(join.inner);
    let join_type = match &join.join_type {
        OptdJoin::Inner => JoinType::Inner,
        OptdJoin::LeftSemi => JoinType::LeftSemi,
        OptdJoin::LeftAnti => JoinType::LeftAnti,
        OptdJoin::LeftOuter => JoinType::LeftOuter,
        OptdJoin::Single => JoinType::Single,
        OptdJoin::RightOuter => JoinType::RightOuter,
        OptdJoin::FullOuter => JoinType::FullOuter,
        OptdJoin::LeftMark { marker, .. } => {
            return Operator::LeftMark { on, outer, inner, marker: column_of(marker) };
        }
    };
    Operator::Join { join_type, on, outer, inner }
}
