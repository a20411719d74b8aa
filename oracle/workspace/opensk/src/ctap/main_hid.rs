// Wrapper: the real main_hid.rs and a way to the wink's timer and to the CtapHid inside,
// whose window is in hid/receive.rs.
include!("real_main_hid.rs");

impl<E: Env> MainHid<E> {
    pub fn oracle_hid(&mut self) -> &mut CtapHid<E> {
        &mut self.hid
    }

    pub fn oracle_wink(&self) -> &<E::Clock as Clock>::Timer {
        &self.wink_permission
    }
}
