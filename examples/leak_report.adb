--  A pool type of the program's own (RM 13.11): it extends Block_Pool by a component, an Initialize and a Finalize, and has the library's
--  Allocate and Deallocate. It counts the blocks that are out. Its Finalize comes behind the end of the collection, whose objects are
--  finalized then but still have their blocks (RM 7.6.1, 13.11.2); only then does the pool close.
with Ada.Finalization; use Ada.Finalization;
with Ada.Text_IO;      use Ada.Text_IO;
with Ada.Unchecked_Deallocation;
with Block_Pools;      use Block_Pools;

procedure Leak_Report is
   type Counting_Pool is new Block_Pool with record
      Taken : Integer := 0;
   end record;

   overriding procedure Initialize (X : in out Counting_Pool);
   overriding procedure Finalize (X : in out Counting_Pool);

   type Buffer is new Limited_Controlled with record
      Number : Integer := 0;
   end record;

   overriding procedure Finalize (X : in out Buffer);

   procedure Initialize (X : in out Counting_Pool) is
   begin
      Put_Line ("the pool opens");
   end Initialize;

   procedure Finalize (X : in out Counting_Pool) is
   begin
      Put_Line ("the pool closes, blocks not given back:" & Integer'Image (X.Taken));
   end Finalize;

   procedure Finalize (X : in out Buffer) is
   begin
      Put_Line ("   buffer" & Integer'Image (X.Number) & " is finalized");
   end Finalize;
begin
   declare
      --  A buffer takes 16 storage units.
      Pool : Counting_Pool (16, 2);

      type Link is access Buffer;
      for Link'Storage_Pool use Pool;

      procedure Free is new Ada.Unchecked_Deallocation (Buffer, Link);

      procedure Make (X : in out Link; Number : Integer) is
      begin
         X := new Buffer;
         X.Number := Number;
         Pool.Taken := Pool.Taken + 1;
         Put_Line ("made" & Integer'Image (Number));
      end Make;

      procedure Drop (X : in out Link) is
      begin
         Free (X);
         Pool.Taken := Pool.Taken - 1;
      end Drop;

      A, B : Link;
   begin
      Make (A, 1);
      Make (B, 2);
      Drop (A);
      Make (A, 3);
   end;
   Put_Line ("behind the block");
end Leak_Report;
