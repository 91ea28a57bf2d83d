//! The calls of the mechglue, which this interposer makes in turn: MIT's mechanism answers them.

use crate::abi::*;
use std::ffi::{c_char, c_int};

unsafe extern "C" {
    pub fn secure_getenv(name: *const c_char) -> *const c_char;
    pub fn getpid() -> c_int;
    pub fn geteuid() -> u32;
}

unsafe extern "C" {
    pub fn gss_create_empty_oid_set(minor: *mut u32, set: *mut OidSet) -> u32;
    pub fn gss_add_oid_set_member(minor: *mut u32, oid: Oid, set: *mut OidSet) -> u32;
    pub fn gss_release_oid_set(minor: *mut u32, set: *mut OidSet) -> u32;
    pub fn gss_release_buffer(minor: *mut u32, buffer: Buffer) -> u32;
    pub fn gss_add_buffer_set_member(minor: *mut u32, member: Buffer, set: *mut BufferSet) -> u32;
    pub fn gss_acquire_cred_from(
        minor: *mut u32,
        name: Name,
        time: u32,
        mechs: OidSet,
        usage: c_int,
        store: CredStore,
        cred: *mut Cred,
        actual: *mut OidSet,
        life: *mut u32,
    ) -> u32;
    pub fn gss_acquire_cred_impersonate_name(
        minor: *mut u32,
        cred: Cred,
        name: Name,
        time: u32,
        mechs: OidSet,
        usage: c_int,
        out: *mut Cred,
        actual: *mut OidSet,
        life: *mut u32,
    ) -> u32;
    pub fn gss_acquire_cred_with_password(
        minor: *mut u32,
        name: Name,
        password: Buffer,
        time: u32,
        mechs: OidSet,
        usage: c_int,
        out: *mut Cred,
        actual: *mut OidSet,
        life: *mut u32,
    ) -> u32;
    pub fn gss_release_cred(minor: *mut u32, cred: *mut Cred) -> u32;
    pub fn gss_inquire_cred(
        minor: *mut u32,
        cred: Cred,
        name: *mut Name,
        life: *mut u32,
        usage: *mut c_int,
        mechs: *mut OidSet,
    ) -> u32;
    pub fn gss_inquire_cred_by_mech(
        minor: *mut u32,
        cred: Cred,
        mech: Oid,
        name: *mut Name,
        ilife: *mut u32,
        alife: *mut u32,
        usage: *mut c_int,
    ) -> u32;
    pub fn gss_inquire_cred_by_oid(
        minor: *mut u32,
        cred: Cred,
        oid: Oid,
        set: *mut BufferSet,
    ) -> u32;
    pub fn gss_store_cred_into(
        minor: *mut u32,
        cred: Cred,
        usage: c_int,
        mech: Oid,
        overwrite: u32,
        default: u32,
        store: CredStore,
        stored: *mut OidSet,
        usage_stored: *mut c_int,
    ) -> u32;
    pub fn gss_export_cred(minor: *mut u32, cred: Cred, token: Buffer) -> u32;
    pub fn gss_import_cred(minor: *mut u32, token: Buffer, cred: *mut Cred) -> u32;
    pub fn gss_set_cred_option(minor: *mut u32, cred: *mut Cred, oid: Oid, value: Buffer) -> u32;
    pub fn gssspi_mech_invoke(minor: *mut u32, mech: Oid, oid: Oid, value: Buffer) -> u32;
    pub fn gss_init_sec_context(
        minor: *mut u32,
        cred: Cred,
        ctx: *mut Ctx,
        target: Name,
        mech: Oid,
        flags: u32,
        time: u32,
        bindings: Bindings,
        input: Buffer,
        actual: *mut Oid,
        output: Buffer,
        ret_flags: *mut u32,
        life: *mut u32,
    ) -> u32;
    pub fn gss_accept_sec_context(
        minor: *mut u32,
        ctx: *mut Ctx,
        cred: Cred,
        input: Buffer,
        bindings: Bindings,
        source: *mut Name,
        mech: *mut Oid,
        output: Buffer,
        ret_flags: *mut u32,
        life: *mut u32,
        delegated: *mut Cred,
    ) -> u32;
    pub fn gss_process_context_token(minor: *mut u32, ctx: Ctx, token: Buffer) -> u32;
    pub fn gss_delete_sec_context(minor: *mut u32, ctx: *mut Ctx, token: Buffer) -> u32;
    pub fn gss_context_time(minor: *mut u32, ctx: Ctx, life: *mut u32) -> u32;
    pub fn gss_inquire_context(
        minor: *mut u32,
        ctx: Ctx,
        source: *mut Name,
        target: *mut Name,
        life: *mut u32,
        mech: *mut Oid,
        flags: *mut u32,
        local: *mut c_int,
        open: *mut c_int,
    ) -> u32;
    pub fn gss_inquire_sec_context_by_oid(
        minor: *mut u32,
        ctx: Ctx,
        oid: Oid,
        set: *mut BufferSet,
    ) -> u32;
    pub fn gss_set_sec_context_option(
        minor: *mut u32,
        ctx: *mut Ctx,
        oid: Oid,
        value: Buffer,
    ) -> u32;
    pub fn gss_export_sec_context(minor: *mut u32, ctx: *mut Ctx, token: Buffer) -> u32;
    pub fn gss_get_mic(minor: *mut u32, ctx: Ctx, qop: u32, message: Buffer, token: Buffer) -> u32;
    pub fn gss_verify_mic(
        minor: *mut u32,
        ctx: Ctx,
        message: Buffer,
        token: Buffer,
        qop: *mut u32,
    ) -> u32;
    pub fn gss_wrap(
        minor: *mut u32,
        ctx: Ctx,
        conf: c_int,
        qop: u32,
        input: Buffer,
        state: *mut c_int,
        output: Buffer,
    ) -> u32;
    pub fn gss_unwrap(
        minor: *mut u32,
        ctx: Ctx,
        input: Buffer,
        output: Buffer,
        state: *mut c_int,
        qop: *mut u32,
    ) -> u32;
    pub fn gss_wrap_size_limit(
        minor: *mut u32,
        ctx: Ctx,
        conf: c_int,
        qop: u32,
        size: u32,
        most: *mut u32,
    ) -> u32;
    pub fn gss_wrap_iov(
        minor: *mut u32,
        ctx: Ctx,
        conf: c_int,
        qop: u32,
        state: *mut c_int,
        iov: Iov,
        count: c_int,
    ) -> u32;
    pub fn gss_unwrap_iov(
        minor: *mut u32,
        ctx: Ctx,
        state: *mut c_int,
        qop: *mut u32,
        iov: Iov,
        count: c_int,
    ) -> u32;
    pub fn gss_wrap_iov_length(
        minor: *mut u32,
        ctx: Ctx,
        conf: c_int,
        qop: u32,
        state: *mut c_int,
        iov: Iov,
        count: c_int,
    ) -> u32;
    pub fn gss_get_mic_iov(minor: *mut u32, ctx: Ctx, qop: u32, iov: Iov, count: c_int) -> u32;
    pub fn gss_get_mic_iov_length(
        minor: *mut u32,
        ctx: Ctx,
        qop: u32,
        iov: Iov,
        count: c_int,
    ) -> u32;
    pub fn gss_verify_mic_iov(
        minor: *mut u32,
        ctx: Ctx,
        qop: *mut u32,
        iov: Iov,
        count: c_int,
    ) -> u32;
    pub fn gss_pseudo_random(
        minor: *mut u32,
        ctx: Ctx,
        key: c_int,
        input: Buffer,
        length: isize,
        output: Buffer,
    ) -> u32;
    pub fn gss_display_status(
        minor: *mut u32,
        value: u32,
        of: c_int,
        mech: Oid,
        more: *mut u32,
        text: Buffer,
    ) -> u32;
    pub fn gss_import_name(minor: *mut u32, text: Buffer, of: Oid, name: *mut Name) -> u32;
    pub fn gss_canonicalize_name(minor: *mut u32, name: Name, mech: Oid, out: *mut Name) -> u32;
    pub fn gss_release_name(minor: *mut u32, name: *mut Name) -> u32;
    pub fn gss_duplicate_name(minor: *mut u32, name: Name, out: *mut Name) -> u32;
    pub fn gss_compare_name(minor: *mut u32, one: Name, other: Name, equal: *mut c_int) -> u32;
    pub fn gss_display_name(minor: *mut u32, name: Name, text: Buffer, of: *mut Oid) -> u32;
    pub fn gss_display_name_ext(minor: *mut u32, name: Name, of: Oid, text: Buffer) -> u32;
    pub fn gss_export_name(minor: *mut u32, name: Name, text: Buffer) -> u32;
    pub fn gss_export_name_composite(minor: *mut u32, name: Name, text: Buffer) -> u32;
    pub fn gss_inquire_name(
        minor: *mut u32,
        name: Name,
        is_mn: *mut c_int,
        mech: *mut Oid,
        attributes: *mut BufferSet,
    ) -> u32;
    pub fn gss_get_name_attribute(
        minor: *mut u32,
        name: Name,
        attribute: Buffer,
        authenticated: *mut c_int,
        complete: *mut c_int,
        value: Buffer,
        shown: Buffer,
        more: *mut c_int,
    ) -> u32;
    pub fn gss_set_name_attribute(
        minor: *mut u32,
        name: Name,
        complete: c_int,
        attribute: Buffer,
        value: Buffer,
    ) -> u32;
    pub fn gss_delete_name_attribute(minor: *mut u32, name: Name, attribute: Buffer) -> u32;
    pub fn gss_localname(minor: *mut u32, name: Name, mech: Oid, text: Buffer) -> u32;
    pub fn gss_authorize_localname(minor: *mut u32, name: Name, user: Name) -> u32;
    pub fn gss_indicate_mechs(minor: *mut u32, set: *mut OidSet) -> u32;
    pub fn gss_inquire_names_for_mech(minor: *mut u32, mech: Oid, types: *mut OidSet) -> u32;
    pub fn gss_inquire_attrs_for_mech(
        minor: *mut u32,
        mech: Oid,
        attributes: *mut OidSet,
        known: *mut OidSet,
    ) -> u32;
    pub fn gss_inquire_saslname_for_mech(
        minor: *mut u32,
        mech: Oid,
        sasl: Buffer,
        name: Buffer,
        text: Buffer,
    ) -> u32;
    pub fn gss_inquire_mech_for_saslname(minor: *mut u32, sasl: Buffer, mech: *mut Oid) -> u32;
}
