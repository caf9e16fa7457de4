//! What `mock serve` is compared with: a stub server as one would write it in Rust over `hyper`, with a locked list of
//! mappings and a journal that keeps each request whole. `baseline MAPPINGS [THREADS]`: that many mappings
//! `/api/NUMBER`, and one more, the newest, at `/hi`; one serving thread, or the runtime's with so many workers. It
//! prints `listening on http://127.0.0.1:PORT`.
use hyper::body::to_bytes;
use hyper::server::conn::Http;
use hyper::service::service_fn;
use hyper::{Body, HeaderMap, Method, Request, Response, StatusCode, Uri};
use std::convert::Infallible;
use std::sync::{Arc, Mutex};
use tokio::net::{TcpListener, TcpStream};

struct Mapping {
    method: Method,
    path: String,
    status: StatusCode,
    content_type: &'static str,
    body: String,
}

/// A request as the journal keeps it: its method, its target, its headers as texts, its body.
#[allow(dead_code)]
struct Entry {
    method: Method,
    target: Uri,
    headers: Vec<(String, Vec<u8>)>,
    body: Vec<u8>,
    mapping: Option<Arc<Mapping>>,
}

#[derive(Default)]
struct Book {
    mappings: Vec<Arc<Mapping>>,
    journal: Vec<Entry>,
}

impl Book {
    fn serve(&mut self, method: Method, target: Uri, headers: Vec<(String, Vec<u8>)>, body: Vec<u8>) -> Option<Arc<Mapping>> {
        let found = self
            .mappings
            .iter()
            .find(|mapping| mapping.method == method && mapping.path == target.path())
            .cloned();
        self.journal.push(Entry { method, target, headers, body, mapping: found.clone() });
        found
    }
}

fn texts(headers: &HeaderMap) -> Vec<(String, Vec<u8>)> {
    headers
        .iter()
        .map(|(name, value)| (name.as_str().to_owned(), value.as_bytes().to_owned()))
        .collect()
}

async fn answer(book: Arc<Mutex<Book>>, request: Request<Body>) -> Result<Response<Body>, Infallible> {
    let (head, body) = request.into_parts();
    let Ok(body) = to_bytes(body).await else {
        return Ok(Response::builder().status(400).body(Body::empty()).unwrap());
    };
    let headers = texts(&head.headers);
    let found = book.lock().unwrap().serve(head.method, head.uri, headers, body.to_vec());
    let response = match found {
        Some(mapping) => Response::builder()
            .status(mapping.status)
            .header("content-type", mapping.content_type)
            .body(Body::from(mapping.body.clone())),
        None => Response::builder().status(404).body(Body::empty()),
    };
    Ok(response.unwrap())
}

fn mapping(path: String, body: String) -> Arc<Mapping> {
    Arc::new(Mapping { method: Method::GET, path, status: StatusCode::OK, content_type: "text/plain", body })
}

fn main() {
    let count: usize = std::env::args().nth(1).and_then(|text| text.parse().ok()).unwrap_or(0);
    let mut book = Book::default();
    book.mappings.push(mapping("/hi".to_owned(), "hello".to_owned()));
    for number in (0..count).rev() {
        book.mappings.push(mapping(format!("/api/{number}"), format!("answer {number}")));
    }
    let book = Arc::new(Mutex::new(book));
    match std::env::args().nth(2).and_then(|text| text.parse().ok()) {
        Some(threads) => {
            let mut builder = tokio::runtime::Builder::new_multi_thread();
            let runtime = builder.worker_threads(threads).enable_io().build().unwrap();
            runtime.block_on(async move {
                let listener = listening().await;
                loop {
                    tokio::spawn(serve(accepted(&listener).await, book.clone()));
                }
            });
        }
        None => {
            let runtime = tokio::runtime::Builder::new_current_thread().enable_io().build().unwrap();
            tokio::task::LocalSet::new().block_on(&runtime, async move {
                let listener = listening().await;
                loop {
                    tokio::task::spawn_local(serve(accepted(&listener).await, book.clone()));
                }
            });
        }
    }
}

async fn listening() -> TcpListener {
    let listener = TcpListener::bind("127.0.0.1:0").await.unwrap();
    println!("listening on http://{}", listener.local_addr().unwrap());
    listener
}

async fn accepted(listener: &TcpListener) -> TcpStream {
    let (stream, _) = listener.accept().await.unwrap();
    stream.set_nodelay(true).unwrap();
    stream
}

async fn serve(stream: TcpStream, book: Arc<Mutex<Book>>) {
    let service = service_fn(move |request| answer(book.clone(), request));
    let _ = Http::new().http1_only(true).serve_connection(stream, service).await;
}
