//! The calls of the static library. Each stands here as it stands in `crates/yokefathom/src`, word for word: the macro makes of it
//! the C declaration, in which a slice is a pointer and a length, and a safe function of the same name. It is safe because the Rattle
//! function asks nothing of its caller but what the slices' types say.
#![allow(clippy::too_many_arguments)]
use crate::input::SlotRow;

macro_rules! calls {
    ($( $(#[$about:meta])* pub extern "C" fn $name:ident($($parameters:tt)*) $(-> $result:ident)? )*) => {
        $( call! { [$(#[$about])* $name $($result)?] [] [] [] $($parameters)* } )*
    };
}

macro_rules! call {
    // A lent table of fixed size is a pointer.
    ($head:tt [$($c:tt)*] [$($safe:tt)*] [$($pass:tt)*] $p:ident: &mut [$t:ty; $n:literal], $($rest:tt)*) => {
        call! { $head [$($c)* $p: *mut [$t; $n],] [$($safe)* $p: &mut [$t; $n],] [$($pass)* $p,] $($rest)* }
    };
    ($head:tt [$($c:tt)*] [$($safe:tt)*] [$($pass:tt)*] $p:ident: &mut [$t:ty], $($rest:tt)*) => {
        call! { $head [$($c)* $p: *mut $t, _: usize,] [$($safe)* $p: &mut [$t],] [$($pass)* $p.as_mut_ptr(), $p.len(),] $($rest)* }
    };
    ($head:tt [$($c:tt)*] [$($safe:tt)*] [$($pass:tt)*] $p:ident: &[$t:ty], $($rest:tt)*) => {
        call! { $head [$($c)* $p: *const $t, _: usize,] [$($safe)* $p: &[$t],] [$($pass)* $p.as_ptr(), $p.len(),] $($rest)* }
    };
    ($head:tt [$($c:tt)*] [$($safe:tt)*] [$($pass:tt)*] $p:ident: $t:ty, $($rest:tt)*) => {
        call! { $head [$($c)* $p: $t,] [$($safe)* $p: $t,] [$($pass)* $p,] $($rest)* }
    };
    ([$(#[$about:meta])* $name:ident $($result:ident)?] [$($c:tt)*] [$($safe:tt)*] [$($pass:tt)*]) => {
        $(#[$about])*
        #[inline]
        pub(crate) fn $name($($safe)*) $(-> $result)? {
            unsafe extern "C" {
                fn $name($($c)*) $(-> $result)?;
            }
            // SAFETY: every pointer comes with the length of the slice that it is of, and the call has no `requires`.
            unsafe { $name($($pass)*) }
        }
    };
}

calls! {
    /// The graph of an input by the copied route, in the columns lent, with its account; or a refusal, and all of them zero.
    pub extern "C" fn yokefathom_build_copied(
        ids: &[u64],
        kinds: &[u8],
        classes: &[u32],
        lengths: &[u32],
        class_ids: &[u64],
        loaders: &[u64],
        dumped: &[u8],
        class_kinds: &[u8],
        slot_starts: &[u32],
        slot_ends: &[u32],
        static_starts: &[u32],
        static_ends: &[u32],
        slot_offsets: &[u32],
        slot_labels: &[u32],
        slot_weak: &[u8],
        static_names: &[u32],
        static_types: &[u8],
        static_values: &[u64],
        names: usize,
        codes: &[u32],
        escape_places: &[u64],
        escape_ids: &[u64],
        base: u64,
        starts: &[u32],
        roots: &[u32],
        keep_soft: bool,
        keep_weak: bool,
        targets: &mut [u32],
        labels: &mut [u32],
        weak_from: &mut [u32],
        weak_to: &mut [u32],
        roots_out: &mut [u32],
        working: &mut [u64],
        account: &mut [[u64; 3]; 4],
        bases: &mut [u64],
        short: &mut [u16],
        long_at: &mut [u32],
        long_value: &mut [u64],
        fields: &mut [u32],
        table: &mut [u16],
        escape_at: &mut [u64],
        escape_label: &mut [u32],
        edge_codes: &mut [u16],
        counting: &mut [u64],
        ranking: &mut [u64],
        answer: &mut [u64; 9],
    )

    /// The graph of an input by the raw route, in the columns lent, with its account; or a refusal, and all of them zero.
    pub extern "C" fn yokefathom_build_raw(
        ids: &[u64],
        kinds: &[u8],
        classes: &[u32],
        lengths: &[u32],
        class_ids: &[u64],
        loaders: &[u64],
        dumped: &[u8],
        class_kinds: &[u8],
        slot_starts: &[u32],
        slot_ends: &[u32],
        static_starts: &[u32],
        static_ends: &[u32],
        slot_offsets: &[u32],
        slot_labels: &[u32],
        slot_weak: &[u8],
        static_names: &[u32],
        static_types: &[u8],
        static_values: &[u64],
        names: usize,
        bytes: &[u8],
        size: usize,
        starts: &[u64],
        bodies: &[u32],
        roots: &[u32],
        keep_soft: bool,
        keep_weak: bool,
        targets: &mut [u32],
        labels: &mut [u32],
        weak_from: &mut [u32],
        weak_to: &mut [u32],
        roots_out: &mut [u32],
        working: &mut [u64],
        account: &mut [[u64; 3]; 4],
        bases: &mut [u64],
        short: &mut [u16],
        long_at: &mut [u32],
        long_value: &mut [u64],
        fields: &mut [u32],
        table: &mut [u16],
        escape_at: &mut [u64],
        escape_label: &mut [u32],
        edge_codes: &mut [u16],
        counting: &mut [u64],
        ranking: &mut [u64],
        answer: &mut [u64; 9],
    )

    /// The coded columns of the graph whose plain columns these are, with the used lengths; or the refusal, and all of them zero.
    pub extern "C" fn yokefathom_from_parts(
        class_ids: &[u64],
        loaders: &[u64],
        dumped: &[u8],
        class_kinds: &[u8],
        slot_starts: &[u32],
        slot_ends: &[u32],
        static_starts: &[u32],
        static_ends: &[u32],
        slot_offsets: &[u32],
        slot_labels: &[u32],
        slot_weak: &[u8],
        static_names: &[u32],
        static_types: &[u8],
        static_values: &[u64],
        names: usize,
        offsets: &[u64],
        targets: &[u32],
        labels: &[u32],
        weak_from: &[u32],
        weak_to: &[u32],
        roots: &[u32],
        dangling: u64,
        bases: &mut [u64],
        short: &mut [u16],
        long_at: &mut [u32],
        long_value: &mut [u64],
        fields: &mut [u32],
        table: &mut [u16],
        escape_at: &mut [u64],
        escape_label: &mut [u32],
        edge_codes: &mut [u16],
        counting: &mut [u64],
        ranking: &mut [u64],
        answer: &mut [u64; 9],
    )

    /// The rows written, zeros behind them; or ROOM, and all three columns zero.
    pub extern "C" fn yokefathom_fill_rows(
        rows: &[SlotRow],
        offsets: &mut [u32],
        labels: &mut [u32],
        weak: &mut [u8],
        answer: &mut [u64; 4],
    )

    /// The same of rows that are lent as columns. The shortest says how many rows there are, so a host lends columns of one length.
    pub extern "C" fn yokefathom_fill_columns(
        from_offsets: &[u32],
        from_labels: &[u32],
        from_weak: &[u8],
        offsets: &mut [u32],
        labels: &mut [u32],
        weak: &mut [u8],
        answer: &mut [u64; 4],
    )

    /// Where the edges of an object sit in the target column.
    pub extern "C" fn yokefathom_span(
        object: usize,
        bases: &[u64],
        short: &[u16],
        long_at: &[u32],
        long_value: &[u64],
        edge_codes: &[u16],
        targets: &[u32],
        answer: &mut [u64; 4],
    )

    /// How many edges an object has.
    pub extern "C" fn yokefathom_edge_count(
        object: usize,
        bases: &[u64],
        short: &[u16],
        long_at: &[u32],
        long_value: &[u64],
        edge_codes: &[u16],
        targets: &[u32],
        answer: &mut [u64; 4],
    )

    /// The rows of an object's weak pairs.
    pub extern "C" fn yokefathom_weak_referents(
        object: usize,
        short: &[u16],
        weak_from: &[u32],
        weak_to: &[u32],
        answer: &mut [u64; 4],
    )

    /// The field label of an edge of an object, or just `ARRAY_ELEMENT` for an element.
    pub extern "C" fn yokefathom_coarse_label(
        object: usize,
        edge: usize,
        bases: &[u64],
        short: &[u16],
        long_at: &[u32],
        long_value: &[u64],
        edge_codes: &[u16],
        targets: &[u32],
        fields: &[u32],
        escape_at: &[u64],
        escape_label: &[u32],
        answer: &mut [u64; 4],
    )

    /// The label of an edge of an object, an element's with its index.
    pub extern "C" fn yokefathom_exact_label(
        object: usize,
        edge: usize,
        bases: &[u64],
        short: &[u16],
        long_at: &[u32],
        long_value: &[u64],
        edge_codes: &[u16],
        targets: &[u32],
        fields: &[u32],
        escape_at: &[u64],
        escape_label: &[u32],
        answer: &mut [u64; 4],
    )

    /// The exact label of an object's first edge to a target.
    pub extern "C" fn yokefathom_label_of(
        object: usize,
        target: u32,
        bases: &[u64],
        short: &[u16],
        long_at: &[u32],
        long_value: &[u64],
        edge_codes: &[u16],
        targets: &[u32],
        fields: &[u32],
        escape_at: &[u64],
        escape_label: &[u32],
        answer: &mut [u64; 4],
    )

    /// The target of a field of an object.
    pub extern "C" fn yokefathom_field(
        object: usize,
        label: u32,
        bases: &[u64],
        short: &[u16],
        long_at: &[u32],
        long_value: &[u64],
        edge_codes: &[u16],
        targets: &[u32],
        fields: &[u32],
        escape_at: &[u64],
        escape_label: &[u32],
        answer: &mut [u64; 4],
    )

    /// The target of a field of an object, or where it has none its smallest weak target.
    pub extern "C" fn yokefathom_referent(
        object: usize,
        label: u32,
        bases: &[u64],
        short: &[u16],
        long_at: &[u32],
        long_value: &[u64],
        edge_codes: &[u16],
        targets: &[u32],
        fields: &[u32],
        escape_at: &[u64],
        escape_label: &[u32],
        weak_from: &[u32],
        weak_to: &[u32],
        answer: &mut [u64; 4],
    )

    /// All edges of an object, their targets and exact labels from the front of the columns lent. Zeros behind them; or a refusal, and both columns zero.
    pub extern "C" fn yokefathom_object_edges(
        object: usize,
        bases: &[u64],
        short: &[u16],
        long_at: &[u32],
        long_value: &[u64],
        edge_codes: &[u16],
        targets: &[u32],
        fields: &[u32],
        escape_at: &[u64],
        escape_label: &[u32],
        own_targets: &mut [u32],
        own_labels: &mut [u32],
        answer: &mut [u64; 4],
    )

    /// A field of each object of a list: targets and marks from the front of the columns lent, zeros behind them; or a refusal at a position, and both columns zero.
    pub extern "C" fn yokefathom_field_of_each(
        objects: &[u32],
        label: u32,
        bases: &[u64],
        short: &[u16],
        long_at: &[u32],
        long_value: &[u64],
        edge_codes: &[u16],
        targets: &[u32],
        fields: &[u32],
        escape_at: &[u64],
        escape_label: &[u32],
        own_targets: &mut [u32],
        found: &mut [u8],
        answer: &mut [u64; 4],
    )

    /// For each object the objects that refer to it and the places of their edges, rising, with blocked offsets; or a refusal, and all columns lent zero.
    pub extern "C" fn yokefathom_invert(
        bases: &[u64],
        short: &[u16],
        long_at: &[u32],
        long_value: &[u64],
        edge_codes: &[u16],
        targets: &[u32],
        fields: &[u32],
        escape_at: &[u64],
        escape_label: &[u32],
        sources: &mut [u32],
        places: &mut [u32],
        in_bases: &mut [u64],
        in_short: &mut [u16],
        in_long_at: &mut [u32],
        in_long_value: &mut [u64],
        working: &mut [u64],
        answer: &mut [u64; 4],
    )

    /// Where the entries of an object sit among the sources and the places.
    pub extern "C" fn yokefathom_in_span(
        object: usize,
        sources: &[u32],
        places: &[u32],
        in_bases: &[u64],
        in_short: &[u16],
        in_long_at: &[u32],
        in_long_value: &[u64],
        answer: &mut [u64; 4],
    )

    /// How many edges go to an object.
    pub extern "C" fn yokefathom_in_degree(
        object: usize,
        sources: &[u32],
        places: &[u32],
        in_bases: &[u64],
        in_short: &[u16],
        in_long_at: &[u32],
        in_long_value: &[u64],
        answer: &mut [u64; 4],
    )

    /// An entry of an object: who refers to it, and the place of that edge in the target column.
    pub extern "C" fn yokefathom_entry_at(
        object: usize,
        k: usize,
        sources: &[u32],
        places: &[u32],
        in_bases: &[u64],
        in_short: &[u16],
        in_long_at: &[u32],
        in_long_value: &[u64],
        answer: &mut [u64; 4],
    )

    /// Where the edges of an object sit, by the short offsets alone.
    pub extern "C" fn yokefathom_lean_span(
        object: usize,
        bases: &[u64],
        short: &[u16],
        codes: usize,
        targets: usize,
    ) -> u64

    /// The exact label of an object's first edge to a target, without long offsets and escapes.
    pub extern "C" fn yokefathom_lean_label_of(
        object: usize,
        target: u32,
        bases: &[u64],
        short: &[u16],
        edge_codes: &[u16],
        targets: &[u32],
        fields: &[u32],
    ) -> u64

    /// The target of a field of an object, without long offsets and escapes.
    pub extern "C" fn yokefathom_lean_field(
        object: usize,
        label: u32,
        bases: &[u64],
        short: &[u16],
        edge_codes: &[u16],
        targets: &[u32],
        fields: &[u32],
    ) -> u64

    /// The target of a field of an object, or its smallest weak target, without long offsets and escapes.
    pub extern "C" fn yokefathom_lean_referent(
        object: usize,
        label: u32,
        bases: &[u64],
        short: &[u16],
        edge_codes: &[u16],
        targets: &[u32],
        fields: &[u32],
        weak_from: &[u32],
        weak_to: &[u32],
    ) -> u64

    /// All edges of an object, without long offsets and escapes.
    pub extern "C" fn yokefathom_lean_object_edges(
        object: usize,
        bases: &[u64],
        short: &[u16],
        edge_codes: &[u16],
        targets: &[u32],
        fields: &[u32],
        own_targets: &mut [u32],
        own_labels: &mut [u32],
    ) -> u64
}
