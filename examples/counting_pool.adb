--  A pool type with an Allocate and a Deallocate of its own (RM 13.11): they pass each request on to the library's operations, count the
--  blocks that are out, and tell it. A request that the library refuses is not counted, since its exception goes on. The end of a collection
--  calls no Deallocate (RM 13.11.2): what is not freed is still counted when the pool closes.
with Ada.Finalization;        use Ada.Finalization;
with Ada.Text_IO;             use Ada.Text_IO;
with Ada.Unchecked_Deallocation;
with System;
with System.Storage_Elements; use System.Storage_Elements;
with Block_Pools;             use Block_Pools;

procedure Counting_Pool is
   type Counted_Pool is new Block_Pool with record
      Taken : Integer := 0;
   end record;

   overriding procedure Allocate
     (Pool : in out Counted_Pool; Storage_Address : out System.Address; Size, Alignment : in Storage_Count);
   overriding procedure Deallocate
     (Pool : in out Counted_Pool; Storage_Address : in System.Address; Size, Alignment : in Storage_Count);
   overriding procedure Finalize (Pool : in out Counted_Pool);

   type Buffer is new Limited_Controlled with record
      Number : Integer := 0;
   end record;

   overriding procedure Finalize (X : in out Buffer);

   procedure Allocate
     (Pool : in out Counted_Pool; Storage_Address : out System.Address; Size, Alignment : in Storage_Count) is
   begin
      Allocate (Block_Pool (Pool), Storage_Address, Size, Alignment);
      Pool.Taken := Pool.Taken + 1;
      Put_Line ("   blocks out:" & Integer'Image (Pool.Taken));
   end Allocate;

   procedure Deallocate
     (Pool : in out Counted_Pool; Storage_Address : in System.Address; Size, Alignment : in Storage_Count) is
   begin
      Deallocate (Block_Pool (Pool), Storage_Address, Size, Alignment);
      Pool.Taken := Pool.Taken - 1;
      Put_Line ("   blocks out:" & Integer'Image (Pool.Taken));
   end Deallocate;

   procedure Finalize (Pool : in out Counted_Pool) is
   begin
      Put_Line ("the pool closes, blocks out:" & Integer'Image (Pool.Taken));
   end Finalize;

   procedure Finalize (X : in out Buffer) is
   begin
      Put_Line ("   buffer" & Integer'Image (X.Number) & " is finalized");
   end Finalize;
begin
   declare
      --  A buffer takes 16 storage units: eight for its tag, and eight for its number.
      Pool : Counted_Pool (Block_Size => 16, Block_Count => 2);

      type Link is access Buffer with Storage_Pool => Pool;

      procedure Free is new Ada.Unchecked_Deallocation (Buffer, Link);

      A, B, C : Link;

      procedure Make (X : in out Link; Number : in Integer) is
      begin
         Put_Line ("make" & Integer'Image (Number));
         X := new Buffer;
         X.Number := Number;
      exception
         when Storage_Error =>
            Put_Line ("   refused");
      end Make;
   begin
      Make (A, 1);
      Make (B, 2);
      Make (C, 3);
      Put_Line ("free 1");
      Free (A);
      Make (C, 3);
   end;
   Put_Line ("behind the block");
end Counting_Pool;
