# An image of the program of dist/, with its launcher, by which it ends at SIGTERM also as the first process of a
# container. README.md says how to build and run it.
FROM docker.io/library/debian:bookworm-slim
COPY mock /opt/mock/
COPY dist/mock-x86_64-linux dist/SOURCES dist/page.html /opt/mock/dist/
USER 65534:65534
EXPOSE 8080
ENTRYPOINT ["/opt/mock/mock", "serve", "--bind-address", "0.0.0.0", "--port", "8080"]
