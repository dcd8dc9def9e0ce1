"""All files."""

from . import certificates, cms, keys, lists, ocsp, pkcs12, signed, stamps, written


def make(shop):
    keys.make_keys(shop)
    keys.key_files(shop)
    keys.parameter_files(shop)
    shop.finish()
    certificates.make_authorities(shop)
    certificates.certificate_files(shop)
    certificates.request_files(shop)
    lists.list_files(shop)
    signed.make_signers(shop)
    shop.finish()
    ocsp.ocsp_files(shop)
    cms.cms_files(shop)
    stamps.stamp_files(shop)
    pkcs12.pkcs12_files(shop)
    written.written_files(shop)
    shop.finish()
