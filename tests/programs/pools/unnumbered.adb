--  A pool with a discriminant out of range is neither made nor initialized: the next object has its number
--  (RM 3.7.1).
with Ada.Finalization; use Ada.Finalization;
with Ada.Text_IO;      use Ada.Text_IO;
with Block_Pools;      use Block_Pools;

procedure Unnumbered is
   type T is new Controlled with null record;

   overriding procedure Finalize (X : in out T);

   type Pool is new Block_Pool with null record;

   overriding procedure Initialize (X : in out Pool);

   procedure Finalize (X : in out T) is
   begin
      Put_Line ("F");
   end Finalize;

   procedure Initialize (X : in out Pool) is
   begin
      Put_Line ("open");
   end Initialize;
begin
   declare
      P : Pool (8, 0);
   begin
      Put_Line ("in");
   end;
exception
   when Constraint_Error =>
      declare
         X : T;
      begin
         Put_Line ("CE");
      end;
end Unnumbered;
