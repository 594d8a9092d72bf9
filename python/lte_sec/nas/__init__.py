"""The judge of NAS messages: contexts, COUNTs, Security Mode exchanges, Service Requests."""
