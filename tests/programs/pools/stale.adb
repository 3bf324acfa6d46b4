--  An access value designates an object that was freed, whose block another object has now: its use stops the run
--  (RM 13.11.2).
with Ada.Finalization; use Ada.Finalization;
with Ada.Text_IO;      use Ada.Text_IO;
with Ada.Unchecked_Deallocation;
with Block_Pools;      use Block_Pools;

procedure Stale is
   type T is new Controlled with record
      N : Integer := 0;
   end record;

   overriding procedure Finalize (X : in out T);

   procedure Finalize (X : in out T) is
   begin
      Put_Line ("F" & Integer'Image (X.N));
   end Finalize;
begin
   declare
      P : Block_Pool (16, 1);

      type Ref is access T;

      for Ref'Storage_Pool use P;

      procedure Free is new Ada.Unchecked_Deallocation (T, Ref);

      A, B : Ref;
   begin
      A := new T;
      B := A;
      Free (A);
      A := new T;
      Put_Line ("new");
      B.N := 1;
   end;
end Stale;
