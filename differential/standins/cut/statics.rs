pub mod statics {
    use super::*;
    pub fn get_dict_key_ids() -> impl Iterator<Item = &'static DictKeyId> {
        core::iter::empty()
    }
    pub fn get_context_registrations() -> impl Iterator<Item = &'static ContextRegistration> {
        core::iter::empty()
    }
}
