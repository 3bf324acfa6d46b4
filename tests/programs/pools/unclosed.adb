--  The Finalize of a pool fails: Program_Error in place of the end of its block (RM 7.6.1).
with Ada.Finalization; use Ada.Finalization;
with Ada.Text_IO;      use Ada.Text_IO;
with Block_Pools;      use Block_Pools;

procedure Unclosed is
   type T is new Controlled with null record;

   overriding procedure Finalize (X : in out T);

   type Pool is new Block_Pool with null record;

   overriding procedure Finalize (X : in out Pool);

   procedure Finalize (X : in out T) is
   begin
      Put_Line ("F");
   end Finalize;

   procedure Finalize (X : in out Pool) is
   begin
      Put_Line ("close");
      raise Constraint_Error;
   end Finalize;
begin
   declare
      C : T;
      P : Pool (8, 1);

      type Ref is access T with Storage_Pool => P;

      A : Ref;
   begin
      A := new T;
   end;
exception
   when Program_Error =>
      Put_Line ("PE");
end Unclosed;
