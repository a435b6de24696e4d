// swift-tools-version:5.5
// The library for Swift: `import CBcs`, and then the calls of bcs.h.
import PackageDescription

let package = Package(
    name: "bcs",
    products: [.library(name: "CBcs", targets: ["CBcs"])],
    targets: [
        .target(
            name: "CBcs",
            path: ".",
            sources: ["bcs_library.c"],
            publicHeadersPath: "include"
        )
    ],
    cLanguageStandard: .gnu11
)
