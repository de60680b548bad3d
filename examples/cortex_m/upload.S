/* The upload that is linked into an application: a file, or nothing. */
        .section .rodata
        .global upload_start, upload_end
upload_start:
#ifdef UPLOAD
        .incbin UPLOAD
#endif
upload_end:
