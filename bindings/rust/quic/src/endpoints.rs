//! A server and a client on the loopback, which speak HTTP/3 under one certificate.

use quinn::{ClientConfig, Endpoint, ServerConfig};
use rustls::{Certificate, PrivateKey, RootCertStore};
use std::error::Error;
use std::sync::Arc;

/// A value, or whatever went wrong.
type Outcome<T> = Result<T, Box<dyn Error + Send + Sync>>;

/// Returns the server and the client of the files that the words of the program name: a certificate and its key, in DER.
pub fn from_words() -> Outcome<(Endpoint, Endpoint)> {
    let words: Vec<String> = std::env::args().collect();
    match &words[1..] {
        [certificate, key] => make(std::fs::read(certificate)?, std::fs::read(key)?),
        _ => Err("pass a certificate and its key, as run.sh does".into()),
    }
}

/// Makes the endpoints.
fn make(certificate: Vec<u8>, key: Vec<u8>) -> Outcome<(Endpoint, Endpoint)> {
    let certificate = Certificate(certificate);
    let mut roots = RootCertStore::empty();
    roots.add(&certificate)?;
    let mut serving = rustls::ServerConfig::builder()
        .with_safe_defaults()
        .with_no_client_auth()
        .with_single_cert(vec![certificate], PrivateKey(key))?;
    serving.alpn_protocols = vec![b"h3".to_vec()];
    let mut asking =
        rustls::ClientConfig::builder().with_safe_defaults().with_root_certificates(roots).with_no_client_auth();
    asking.alpn_protocols = vec![b"h3".to_vec()];
    let server = Endpoint::server(ServerConfig::with_crypto(Arc::new(serving)), "127.0.0.1:0".parse()?)?;
    let mut client = Endpoint::client("127.0.0.1:0".parse()?)?;
    client.set_default_client_config(ClientConfig::new(Arc::new(asking)));
    Ok((server, client))
}
