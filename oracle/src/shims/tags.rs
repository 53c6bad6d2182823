// The groups, tags and types of values that the compared files name, in the place of the published tags.rs.

declare_groups! { Default, }

declare_ids! { FrameRate, Metadata, }

declare_types! {
    f32: f32,
    f64: f64,
    Json: serde_json::Value,
}
