@ The sample pack and the sample query, in flash.
    .section .rodata.sample, "a"
    .global pack, pack_end, query, query_end
pack:
    .incbin "sample.pack"
pack_end:
query:
    .incbin "sample.query"
query_end:
