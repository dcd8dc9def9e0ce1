"""Extensions as openssl's configuration writes them."""

USAGES = ("digitalSignature nonRepudiation keyEncipherment dataEncipherment keyAgreement keyCertSign cRLSign encipherOnly "
          "decipherOnly").split()
PURPOSES = ("serverAuth clientAuth codeSigning emailProtection timeStamping OCSPSigning ipsecIKE msCodeInd msCodeCom msCTLSign "
            "msEFS msSmartcardLogin anyExtendedKeyUsage 1.3.6.1.5.5.7.3.28 1.2.3.4.5 2.999.1 ipsecEndSystem ipsecTunnel ipsecUser "
            "dvcs secureShellClient secureShellServer nsSGC msUPN capwapAC capwapWTP").split()
NAMES = (
    "DNS:barley.example", "DNS:*.b.example", "email:a@b.example", "URI:https://a.example/x?y=z#q", "IP:192.0.2.7",
    "IP:2001:db8::1", "IP:::ffff:192.0.2.1", "IP:2001:db8:0:0:1:0:0:1", "IP:::", "RID:1.2.3.4", "dirName:directory",
    "otherName:1.3.6.1.4.1.311.20.2.3;UTF8:grain@example", "otherName:1.2.3;IA5:x", "otherName:1.2.3;INTEGER:70000",
    "otherName:1.3.6.1.5.5.7.8.5;UTF8:日本", "otherName:1.2.3;SEQUENCE:parts", "DNS:xn--a.example", "URI:ldap://h/cn=a",
    "otherName:1.2.3;BMP:é", "otherName:1.2.3;OCT:abc", "otherName:1.2.3;T61:abc", "IP:fe80::1:0:0:0:2",
)
REASONS = ("keyCompromise CACompromise affiliationChanged superseded cessationOfOperation certificateHold privilegeWithdrawn "
           "AACompromise").split()
POLICIES = ("1.2.3.4", "2.23.140.1.2.1", "2.23.140.1.2.2", "2.5.29.32.0", "1.3.6.1.4.1.99999.5", "2.23.140.1.1", "2.999.5")
CONSTRAINTS = (
    "DNS:example", "DNS:.example", "email:example", "email:a@b", "URI:.example", "IP:10.0.0.0/255.0.0.0", "IP:2001:db8::/ffff:ffff::",
    "dirName:directory",
)
ACCESS = ("OCSP;URI:http://o.example/", "caIssuers;URI:http://c.example/a.cer", "OCSP;dirName:directory", "caRepository;URI:ldap://h/",
          "1.2.3.9;DNS:a.example", "ad_timestamping;URI:http://t.example", "caIssuers;email:a@b.example", "1.3.6.1.5.5.7.48.10;RID:1.2.3")
# The log list of these is made up: RFC 6962 section 3.3 in octets of TLS.
STAMP = "00" + "5c" * 32 + "0000018bcfe56805" + "0000" + "0403" + "0008" + "3006020101020102"


def critical(shop, value):
    return ("critical," if shop.random.random() < 0.3 else "") + value


def listed(shop, items, most=4):
    return ",".join(shop.some(items, 1, most))


def names(shop):
    """Some names; now and then those with a comma, which stand in a section."""
    return "@commas" if shop.random.random() < 0.1 else listed(shop, NAMES, shop.pick((1, 3, 8)))


def points(shop, number):
    """A line and its sections for where lists are to be had."""
    if shop.random.random() < 0.5:
        return f"URI:http://l.example/{number}.crl,URI:ldap://h/{number}", ""
    where = shop.pick((f"fullname=URI:http://l.example/{number}\n", "relativename=relative\n", "fullname=dirName:directory\n"))
    reasons = f"reasons={listed(shop, REASONS)}\n" if shop.random.random() < 0.6 else ""
    issuer = "CRLissuer=dirName:directory\n" if shop.random.random() < 0.6 or "relative" in where else ""
    return f"point{number}", f"[point{number}]\n{where}{reasons}{issuer}"


def policy(shop, number):
    notice = f"@notice{number}\n"
    words = shop.pick(("UTF8:Grüße", "VISIBLE:read me", "BMP:日本", "plain text"))
    body = f"[policy{number}]\npolicyIdentifier={shop.pick(POLICIES)}\n"
    body += "CPS.1=http://p.example/cps\n" if shop.random.random() < 0.7 else ""
    body += f"userNotice.1={notice}" if shop.random.random() < 0.7 else ""
    more = "organization=Barley & Co\nnoticeNumbers=1,2,300\n" if shop.random.random() < 0.5 else ""
    return f"@policy{number}", f"{body}[notice{number}]\nexplicitText={words}\n{more}"


def asn1(kind):
    return f"ASN1:{kind}"


SECTIONS = (
    "[commas]\nDNS.1=a\\,b\nURI.1=x:\\ \nemail.1=\\#a@b\nDNS.2=c+d<e>\n"
    "[directory]\nC=SE\nO=Grain, \\\"One\\\"\n0.OU=a\n+1.OU=b\nCN=Gr\u00fc\u00dfe\n[relative]\nCN=near\n[parts]\na=INTEGER:5\nb=UTF8:x\n"
    "[period]\na=IMPLICIT:0,GENTIME:20260102030405Z\nb=IMPLICIT:1,GENTIME:20360102030405Z\n"
    "[attributes]\na=SEQUENCE:attribute\n[attribute]\na=OID:2.5.4.3\nb=SET:values\n[values]\na=UTF8:one\nb=UTF8:two\n"
    "[template]\na=OID:1.3.6.1.4.1.311.21.8.1.2\nb=INTEGER:100\nc=INTEGER:7\n"
    "[statements]\na=SEQUENCE:statement\n[statement]\na=OID:0.4.0.1862.1.1\n"
)
FIXED = (
    "basicConstraints={c}CA:true", "basicConstraints={c}CA:true,pathlen:{n}", "basicConstraints={c}CA:false",
    "subjectKeyIdentifier=hash", "subjectKeyIdentifier=00:01:02:fe:ff", "subjectAltName={c}email:copy",
    "inhibitAnyPolicy={c}{n}", "policyConstraints={c}requireExplicitPolicy:{n},inhibitPolicyMapping:{n}",
    "policyConstraints={c}requireExplicitPolicy:{n}", "policyMappings={c}1.2.3.4:2.5.29.32.0,2.999.5:1.2.3", "noCheck=ignored",
    "tlsfeature=status_request", "tlsfeature=status_request,status_request_v2,70", "nsComment={c}a comment \\\"x\\\"",
    "nsBaseUrl=http://n.example", "nsRevocationUrl=r", "nsCaRevocationUrl=c", "nsRenewalUrl=n", "nsCaPolicyUrl=p", "nsSslServerName=s",
    "nsCertType={c}client,server,email,objsign,sslCA,emailCA,objCA", "nsCertType=reserved",
    "1.2.3.4.5={c}DER:0500", "1.3.6.1.4.1.99999.1={c}ASN1:UTF8:own", "2.999.3=DER:00010203", "2.5.29.16=ASN1:SEQUENCE:period",
    "2.5.29.9=ASN1:SEQUENCE:attributes", "1.3.6.1.4.1.11129.2.4.3=critical,ASN1:NULL", "1.3.6.1.4.1.311.21.1=ASN1:INTEGER:131073",
    "1.3.6.1.4.1.311.21.2=ASN1:FORMAT:HEX,OCT:0102ff", "1.3.6.1.4.1.311.20.2=ASN1:BMP:Computer", "1.3.6.1.4.1.311.21.7=ASN1:SEQUENCE:template",
    "1.3.6.1.5.5.7.1.3=ASN1:SEQUENCE:statements", "sbgp-ipAddrBlock={c}IPv4:10.0.0.0/8,IPv6:2001:db8::/32",
    "sbgp-autonomousSysNum=critical,AS:64496,AS:64500-64510", "proxyCertInfo=critical,language:id-ppl-anyLanguage,pathlen:1,policy:text:x",
    "1.3.6.1.4.1.11129.2.4.2=ASN1:FORMAT:HEX,OCT:{stamps}", "2.5.29.54={c}ASN1:INTEGER:{n}", "2.5.29.56=ASN1:NULL",
    "1.3.6.1.5.5.7.48.1.4=ASN1:SEQUENCE:attribute_less", "1.3.6.1.4.1.311.21.4=ASN1:UTC:260102030405Z",
)
LESS = "[attribute_less]\na=OID:1.3.6.1.5.5.7.48.1.1\n"


def stamps(shop):
    """A list of one to three timestamps (RFC 6962 section 3.3)."""
    count = shop.random.randint(1, 3)
    one = f"{len(STAMP) // 2:04x}{STAMP}"
    return f"{len(one) // 2 * count:04x}{one * count}"


def fixed(shop):
    return shop.pick(FIXED).format(c=critical(shop, ""), n=shop.pick((0, 1, 5, 127, 128, 300, 70000)), stamps=stamps(shop))


def made(shop, number):
    """A line of the configuration of one extension, and the sections that it names."""
    kind = shop.random.randrange(14)
    if kind == 0:
        return f"keyUsage={critical(shop, listed(shop, USAGES, 9))}", ""
    if kind == 1:
        return f"extendedKeyUsage={critical(shop, listed(shop, PURPOSES, 12))}", ""
    if kind in (2, 3):
        return f"{shop.pick(('subjectAltName', 'issuerAltName'))}={critical(shop, names(shop))}", ""
    if kind == 4:
        line, body = points(shop, number)
        return f"{shop.pick(('crlDistributionPoints', 'freshestCRL'))}={critical(shop, line)}", body
    if kind == 5:
        line, body = policy(shop, number)
        return f"certificatePolicies={critical(shop, f'{shop.pick(POLICIES[:2])},{line}')}", body
    if kind == 6:
        subtrees = [f"{shop.pick(('permitted', 'excluded'))};{it}" for it in shop.some(CONSTRAINTS, 1, 5)]
        return f"nameConstraints={critical(shop, ','.join(subtrees))}", ""
    if kind == 7:
        ways = listed(shop, ACCESS)
        return f"{shop.pick(('authorityInfoAccess', 'subjectInfoAccess'))}={critical(shop, ways)}", ""
    return fixed(shop), ""


def section(shop, label, most=7, least=0):
    """A section of extensions, each at most once, and all sections that it names."""
    lines, bodies = {}, []
    for number in range(shop.random.randint(least, most)):
        line, body = made(shop, number)
        kind = line.partition("=")[0]
        if kind not in lines:
            lines[kind] = line + "\n"
            bodies.append(body)
    return f"[{label}]\n{''.join(lines.values())}{''.join(bodies)}{SECTIONS}{LESS}", bool(lines)
