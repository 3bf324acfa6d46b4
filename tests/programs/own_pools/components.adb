--  The library's Allocate sets components: of a record, of a formal, of its pool, and of what an access value designates. The
--  part is found before the size and the alignment are evaluated, and its object is looked up once a block has gone out: a
--  pool that is full raises Storage_Error, and an object that the size has freed stops the run (RM 6.4.1, 13.11, 13.11.2).
with Ada.Text_IO;             use Ada.Text_IO;
with Ada.Unchecked_Deallocation;
with System;                  use System;
with System.Storage_Elements; use System.Storage_Elements;
with Block_Pools;             use Block_Pools;

procedure Components is
   type Place is record
      Used  : Boolean;
      Where : System.Address;
   end record;

   type Pair is record
      First  : Place;
      Second : Place;
   end record;

   type Ref is access Pair;

   procedure Free is new Ada.Unchecked_Deallocation (Pair, Ref);

   type Pool is new Block_Pool with record
      Spare : System.Address;
   end record;

   P    : Pool (16, 4);
   X    : Pair;
   V, W : Ref;

   function Last return Ref is
   begin
      Put_Line ("last");
      return V;
   end Last;

   function Asked (N : Storage_Count) return Storage_Count is
   begin
      Put_Line ("asked");
      return N;
   end Asked;

   function Freed return Storage_Count is
   begin
      Put_Line ("freed");
      Free (V);
      return 8;
   end Freed;

   procedure Take (Y : in out Pair) is
   begin
      Allocate (Block_Pool (P), Y.Second.Where, 8, 8);
   end Take;
begin
   V := new Pair;
   Allocate (Block_Pool (P), P.Spare, 8, 8);
   Allocate (Block_Pool (P), X.First.Where, Asked (16), Asked (8));
   Allocate (Block_Pool (P), V.all.First.Where, 0, 8);
   Put_Line (Boolean'Image (P.Spare = X.First.Where) & Boolean'Image (X.First.Where = V.First.Where));
   Put_Line (Boolean'Image (X.Second.Where = System.Null_Address) & Boolean'Image (X.First.Used));
   Take (X);
   Put_Line (Boolean'Image (X.Second.Where = System.Null_Address));
   begin
      Allocate (Block_Pool (P), Last.Second.Where, Asked (8), 8);
   exception
      when Storage_Error =>
         Put_Line ("full" & Boolean'Image (V.Second.Where = System.Null_Address));
   end;
   begin
      Allocate (Block_Pool (P), W.Second.Where, Asked (8), 8);
   exception
      when Constraint_Error =>
         Put_Line ("null");
   end;
   begin
      Allocate (Block_Pool (P), V.Second.Where, Freed, 8);
   exception
      when Storage_Error =>
         Put_Line ("still full" & Boolean'Image (V = null));
   end;
   Deallocate (Block_Pool (P), X.Second.Where, 8, 8);
   V := new Pair;
   Allocate (Block_Pool (P), Last.Second.Where, Asked (8), 8);
   Put_Line (Boolean'Image (V.Second.Where = X.Second.Where));
   Deallocate (Block_Pool (P), V.Second.Where, 8, 8);
   Allocate (Block_Pool (P), V.Second.Where, Freed, 8);
   Put_Line ("done");
end Components;
