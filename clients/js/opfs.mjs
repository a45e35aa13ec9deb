// A client of `opfs_serve`: `navigator.storage` in Node, over an image file. README.md says how to use it.

export { openStore, Store } from "./client/store.mjs";
export { Agent } from "./client/agent.mjs";
export { StoreFault } from "./client/refusals.mjs";
export { FileSystemDirectoryHandle, FileSystemFileHandle, FileSystemHandle } from "./client/handles.mjs";
export { FileSystemSyncAccessHandle } from "./client/access.mjs";
export { FileSystemWritableFileStream } from "./client/writable.mjs";
export { StoredBlob, StoredFile } from "./client/snapshots.mjs";
export { StorageBucket, StorageBucketManager, StorageManager } from "./client/storage.mjs";
