//! Named shapes: saved, dropped and returned to. What a call may only read is lent between guards too, and must be as it was.
use crate::calls::rule;
use crate::lent::{Lent, Number, counted, only_read, written};
use cases::{In, Name, Out};

/// Three columns of one mesh or store.
type Columns<T> = [Lent<T>; 3];

fn read<T: Number>(columns: &Columns<T>) -> (&[T], &[T], &[T]) {
    let [a, b, c] = columns;
    (a.left(), b.left(), c.left())
}

fn write<T: Number>(columns: &mut Columns<T>) -> (&mut [T], &mut [T], &mut [T]) {
    let [a, b, c] = columns;
    (a.lend(), b.lend(), c.lend())
}

/// The mesh that stands next in the input: the columns of its nodes and of its panels.
fn mesh(i: &mut In<'_>) -> (Columns<f64>, Columns<usize>) {
    let m = i.mesh();
    let nodes = [&m.x, &m.y, &m.z].map(|column| Lent::holding(column));
    (nodes, [&m.a, &m.b, &m.c].map(|column| Lent::holding(column)))
}

/// The store that stands next in the input: marks, names and the columns of its shapes.
fn store(i: &mut In<'_>) -> (Lent<u8>, Lent<u8>, Columns<f64>) {
    let s = i.store();
    let shapes = [&s.x, &s.y, &s.z].map(|column| Lent::holding(column));
    (Lent::holding(&s.marks), Lent::holding(&s.names), shapes)
}

/// The name that stands next in the input.
fn name(i: &mut In<'_>) -> Lent<u8> {
    Lent::holding(&i.name())
}

fn eight(name: &Lent<u8>) -> &Name {
    name.left().try_into().expect("eight bytes")
}

pub(crate) fn save_shape(i: &mut In<'_>, o: Out) -> Out {
    let ((nodes, panels), (mut marks, mut names, mut shapes), name) = (mesh(i), store(i), name(i));
    let answer = screens::save_shape(
        read(&nodes),
        read(&panels),
        marks.lend(),
        names.lend(),
        write(&mut shapes),
        eight(&name),
    );
    let o = written(o, answer, &[&marks, &names, &shapes]);
    only_read(o, &[&nodes, &panels, &name])
}

pub(crate) fn drop_shape(i: &mut In<'_>, o: Out) -> Out {
    let ((nodes, panels), (mut marks, names, shapes), name) = (mesh(i), store(i), name(i));
    let answer = screens::drop_shape(
        read(&nodes),
        read(&panels),
        marks.lend(),
        names.left(),
        read(&shapes),
        eight(&name),
    );
    let o = written(o, answer, &[&marks]);
    only_read(o, &[&nodes, &panels, &names, &shapes, &name])
}

pub(crate) fn return_shape(i: &mut In<'_>, o: Out) -> Out {
    let (rule, (mut nodes, panels), mut cells) = (rule(i), mesh(i), Lent::holding(&i.numbers()));
    let ((marks, names, shapes), name) = (store(i), name(i));
    let answer = rule.and_then(|rule| {
        screens::return_shape(
            write(&mut nodes),
            read(&panels),
            rule,
            cells.lend(),
            marks.left(),
            names.left(),
            read(&shapes),
            eight(&name),
        )
    });
    let o = counted(o, answer.map(|count| [count as u64]), 1, &[&cells, &nodes]);
    only_read(o, &[&panels, &marks, &names, &shapes, &name])
}
