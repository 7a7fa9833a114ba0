//! Stands for `ir/entities.rs` of `cranelift-codegen`: what instructions refer to beside values and blocks.

ciderlater_runtime::entities! {
    /// A slot of the stack frame.
    StackSlot;
    /// A slot of the stack frame whose size isn't fixed.
    DynamicStackSlot;
    /// A global value.
    GlobalValue;
    /// A constant in the pool of constants.
    Constant;
    /// An immediate in the pool of immediates.
    Immediate;
    /// A jump table.
    JumpTable;
    /// A function that can be called.
    FuncRef;
    /// A signature of a function.
    SigRef;
    /// A table of exception handlers.
    ExceptionTable;
}
