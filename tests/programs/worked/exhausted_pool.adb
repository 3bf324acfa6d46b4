--  A pool of two blocks: a request is refused where no block is free, and where it is larger than a block; the block
--  of an object that was freed is taken again (RM 13.11).
with Ada.Finalization; use Ada.Finalization;
with Ada.Text_IO;      use Ada.Text_IO;
with Ada.Unchecked_Deallocation;
with Block_Pools;      use Block_Pools;

procedure Exhausted_Pool is
   type T is new Controlled with record
      N : Integer := 0;
   end record;

   overriding procedure Adjust (X : in out T);
   overriding procedure Finalize (X : in out T);

   procedure Adjust (X : in out T) is
   begin
      Put_Line ("A" & Integer'Image (X.N));
   end Adjust;

   procedure Finalize (X : in out T) is
   begin
      Put_Line ("F" & Integer'Image (X.N));
   end Finalize;
begin
   declare
      P : Block_Pool (16, 2);

      type Ref is access T;

      for Ref'Storage_Pool use P;

      type Big is record
         A, B, C : Integer;
      end record;

      type Big_Ref is access Big;

      for Big_Ref'Storage_Pool use P;

      procedure Free is new Ada.Unchecked_Deallocation (T, Ref);

      A, B, C : Ref;
      D       : Big_Ref;
   begin
      A := new T;
      B := new T;
      begin
         C := new T;
      exception
         when Storage_Error =>
            Put_Line ("SE");
      end;
      Free (A);
      begin
         D := new Big;
      exception
         when Storage_Error =>
            Put_Line ("SE24");
      end;
      C := new T;
      Put_Line ("ok");
   end;
end Exhausted_Pool;
